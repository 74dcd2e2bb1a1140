"""`mondlexi ADDR TENANT [COMMAND ..]`, or `python3 -m mondlexi`: a shell, or one of its commands.

Status 0 if all went well; 1 if it didn't connect, or if a command failed that was no line of a terminal, also a `cas` that was not
made; 2 for a wrong command line; 130 after Ctrl-C.

Used by: contrib/mondlexi, and whoever types `python3 -m mondlexi`. An option or a command that is added is told in docs/CLIENTS.md, and
tried by scripts/program_parts/shell.py.
"""
import argparse
import os
import sys
from typing import TYPE_CHECKING, List, Optional

from . import Administrator, Client, Error, __version__
from ._shell import AdministratorShell, Shell, TenantShell

if TYPE_CHECKING:
    import ssl

EPILOG = """`help` is the command that lists the commands. Without a COMMAND it takes them from a terminal or a pipe, one a line.
examples: mondlexi unix:/run/mondlexi/socket t get 0
          mondlexi unix:/run/mondlexi/socket t dump --words > t.dump
          mondlexi words.example:7443 t --ca clients.pem --cert t.pem --key t.key cas 0:0:1"""


def parser_of() -> argparse.ArgumentParser:
    """What the command line may have."""
    name = os.path.basename(sys.argv[0])
    parser = argparse.ArgumentParser(prog="python3 -m mondlexi" if name == "__main__.py" else name, allow_abbrev=False, epilog=EPILOG,
                                     description="A shell for the words of a Mondlexi server.", formatter_class=argparse.RawDescriptionHelpFormatter)
    parser.add_argument("server", metavar="ADDR", help="where the server listens: HOST:PORT or unix:PATH")
    parser.add_argument("tenant", metavar="TENANT", nargs="?", help="whose words they are")
    parser.add_argument("command", metavar="COMMAND", nargs="*", help="get, read, cas, set, dump, load or watch, with its words; of the administrator: report")
    parser.add_argument("--admin", action="store_true", help="be the administrator, without a TENANT")
    parser.add_argument("--words", action="store_true", help="with dump: all words, for load and mwinit --from; as mwshow --words prints them, but `places 1`, and no line `second layout` or `open`")
    parser.add_argument("--timeout", type=float, default=10.0, metavar="SECONDS", help="how long to wait for a reply (10)")
    parser.add_argument("--tls", action="store_true", help="speak TLS, with a proxy in front of the server; so do the following options")
    parser.add_argument("--ca", metavar="FILE", help="the authorities that may sign the proxy's certificate, in place of the system's")
    parser.add_argument("--cert", metavar="FILE", help="the own certificate")
    parser.add_argument("--key", metavar="FILE", help="its key, if the certificate's file doesn't have it")
    parser.add_argument("--tls-name", metavar="NAME", help="the name in the proxy's certificate, if it isn't the host of ADDR")
    parser.add_argument("--version", action="version", version=f"mondlexi {__version__}")
    return parser


def read_arguments() -> argparse.Namespace:
    """What the command line asks for."""
    parser = parser_of()
    given = parser.parse_intermixed_args()
    if given.admin and given.tenant is not None:
        given.tenant, given.command = None, [given.tenant, *given.command]
    if given.admin == (given.tenant is not None) or (given.admin and given.command[:1] not in ([], ["report"], ["help"])):
        parser.error("give a TENANT or --admin")
    if given.words:
        given.command.append("--words")
    if given.words and given.command != ["dump", "--words"]:
        parser.error("--words goes with dump alone")
    if given.key and not given.cert:
        parser.error("--key goes with --cert")
    if not sys.stdin or not sys.stdout:
        parser.error("the standard streams have to be open")
    return given


def context_of(given: argparse.Namespace) -> "Optional[ssl.SSLContext]":
    """How TLS is spoken; None if it isn't. ValueError if a file can't be read, or has not what it must."""
    if not (given.tls or given.ca or given.cert or given.tls_name):
        return None
    import ssl  # not each Python has it
    try:
        context = ssl.create_default_context(cafile=given.ca)
        if given.cert:
            context.load_cert_chain(given.cert, given.key)
    except OSError as error:
        raise ValueError(f"can't read the file of --ca, --cert or --key: {error}") from error
    return context


def run_shell(shell: Shell, intro: str, command: List[str]) -> int:
    """Runs it to the end of its input, or for one command. The status."""
    if command:
        shell.onecmd(" ".join(command))
    elif sys.stdin.isatty():
        shell.run_terminal(f"{intro}; `help` lists the commands")
        return 0
    elif not shell.run_lines(sys.stdin) and isinstance(shell, AdministratorShell):
        print("mondlexi: no command came; `report` is one", file=sys.stderr)
        return 1
    return 1 if shell.has_failed else 0


def connect_and_run(given: argparse.Namespace) -> int:
    """Connects, and runs the shell. The status."""
    context = context_of(given)
    if given.admin:
        with Administrator(given.server, timeout=given.timeout, tls=context, tls_name=given.tls_name) as administrator:
            return run_shell(AdministratorShell(administrator), "the administrator", given.command)
    with Client(given.server, given.tenant, timeout=given.timeout, tls=context, tls_name=given.tls_name) as client:
        return run_shell(TenantShell(client, given.tenant), f"{given.tenant}: {client.words} words", given.command)


def main() -> int:
    """The whole program. The status."""
    given = read_arguments()
    try:
        return connect_and_run(given)
    except KeyboardInterrupt:
        return 130
    except BrokenPipeError:
        # Nobody reads any more. Python would say so again when it ends.
        os.dup2(os.open(os.devnull, os.O_WRONLY), sys.stdout.fileno())
        return 1
    except (Error, ValueError) as error:
        print(f"mondlexi: {error}", file=sys.stderr)
        return 1


if __name__ == "__main__":
    sys.exit(main())
