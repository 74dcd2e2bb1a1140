# Completion of the programs' command lines, for bash: by `source`, or as /usr/share/bash-completion/completions/NAME for each program.
# Each program's own --help tells its options. Kept by hand: the programs, in the last line, which scripts/package links too; the commands of
# mondlexi, which are those of clients/python/mondlexi/_shell.py; and which options take a file, an address,
# a tenant or a mode. scripts/check-package tries some.
_mondlexi() {
  local program=$1 cur=${COMP_WORDS[COMP_CWORD]} prev=${COMP_WORDS[COMP_CWORD-1]}
  if declare -F _get_comp_words_by_ref > /dev/null; then
    _get_comp_words_by_ref -n : cur prev
  fi
  case $prev in
    --tenants | --script | --from | --ca | --cert | --key | load) COMPREPLY=($(compgen -f -- "$cur")) ;;
    --listen | --admin | --http | --connect | mondlexi | mondlexi-check | mondlexi-health)
      COMPREPLY=($(compgen -W "127.0.0.1:7000 unix:/run/mondlexi/socket unix:/run/mondlexi/admin unix:/run/mondlexi/pages" -- "$cur")) ;;
    --tenant) COMPREPLY=($(compgen -W "$(cut -d' ' -f1 tenants 2> /dev/null)" -- "$cur")) ;;
    --mode) COMPREPLY=($(compgen -W "600 660 666" -- "$cur")) ;;
    *)
      case $program:$cur in
        *:-*) COMPREPLY=($(compgen -W "$("$program" --help 2> /dev/null | grep -oE -- '--[a-z][a-z-]*' | sort -u)" -- "$cur")) ;;
        mondlexi:*) COMPREPLY=($(compgen -W "get read cas set dump load watch report help" -- "$cur")) ;;
        *) COMPREPLY=($(compgen -f -- "$cur")) ;;
      esac ;;
  esac
  if declare -F __ltrim_colon_completions > /dev/null; then
    __ltrim_colon_completions "$cur"
  fi
}
complete -F _mondlexi mwinit mwserve mwshow mwreplay mwbench mondlexi mondlexi-check mondlexi-health
