"""The shell: commands by hand at a terminal, lines from a pipe, or one command of the command line.

Used by: `__main__`. Each `do_NAME` is a command, the first line of its docstring its help. A failed command prints one line to
standard error. A further command is told in docs/CLIENTS.md, is a word of contrib/mondlexi.bash, and has a case in
scripts/program_parts/shell.py.
"""
import cmd
import re
import sys
import time
from typing import IO, Dict, Iterable, List, Optional

from ._client import Administrator, Client
from ._protocol import MAX_ENTRIES, Entry, Outcome
from .errors import Error, Lost, Unknown

WATCH_SECONDS = 0.25
"""How often a watched word is read."""
WORD = re.compile(r"(?:word )?([0-9]+) ([0-9]+)")
"""A line of a dump that tells a word: its address and its value."""
WORDS = re.compile(r"words ([0-9]+)")
"""A line of a dump that tells how many words there are."""
OTHERS = re.compile(r"second layout at [0-9]+|places [0-9]+|open [0-9]+ [0-9]+ [0-9]+|")
"""A line of a dump that tells no word. What is open is in the lines of the words too."""


class Failed(Exception):
    """A command can't be done, or was not: the text says why."""


class Shell(cmd.Cmd):
    """What each shell has."""

    def __init__(self, prompt: str) -> None:
        super().__init__()
        self.prompt = prompt
        self.has_failed = False
        self._is_over = False

    def run_terminal(self, intro: str) -> None:
        """Takes commands from a terminal until its end, with `readline` if Python has it. Ctrl-C gives a new prompt."""
        self._say(intro)
        while not self._is_over:
            try:
                self.cmdloop()
            except KeyboardInterrupt:
                self._say("")

    def run_lines(self, lines: IO[str]) -> bool:
        """Takes a command from each line until the end, or `quit`. Whether a line came."""
        came = False
        for line in lines:
            came = True
            if self.onecmd(line.rstrip("\n")):
                break
        return came

    def onecmd(self, line: str) -> bool:
        """Does a command. Whether it was the last one."""
        try:
            self._is_over = bool(super().onecmd(line))
        except (Error, Failed, ValueError) as error:
            self.has_failed = True
            self.stdout.flush()
            hint = "; it was made or not, or is still to be made" if isinstance(error, Unknown) else ""
            print(f"mondlexi: {error}{hint}", file=sys.stderr, flush=True)
        return self._is_over

    def emptyline(self) -> bool:
        """An empty line does nothing."""
        return False

    def completenames(self, text: str, *ignored: object) -> List[str]:
        """The commands that begin so, ready for what follows."""
        return [f"{name} " for name in super().completenames(text, *ignored)]

    def default(self, line: str) -> Optional[bool]:  # type: ignore[override]
        """Any other word. The end of a terminal's lines is told as one."""
        if line == "EOF":
            self._say("")
            return True
        raise Failed(f"no command: {line}; `help` lists them")

    def do_help(self, text: str) -> None:
        """help: lists the commands"""
        for name in self.get_names():
            told = getattr(self, name).__doc__ if name.startswith("do_") else None
            if told:
                self._say("  " + told.splitlines()[0])

    def do_quit(self, text: str) -> bool:
        """quit: ends; the end of the input does, too"""
        return True

    def _say(self, text: str) -> None:
        """Prints a line at once."""
        print(text, file=self.stdout, flush=True)


class TenantShell(Shell):
    """The commands of a tenant."""

    def __init__(self, client: Client, tenant: str) -> None:
        super().__init__(f"{tenant}> ")
        self._client = client

    def do_get(self, text: str) -> None:
        """get A ..: prints the value of each word, on a line of its own; each is of its own moment"""
        addresses = _numbers(text.split(), "get A ..")
        for value in self._client.get_many(addresses):
            self._say(str(value))

    def do_cas(self, text: str) -> None:
        """cas A:E:N ..: writes N to each address A, if each has E; else it fails, and prints a word and its value"""
        if not re.fullmatch(r"[0-9]+:[0-9]+:[0-9]+( +[0-9]+:[0-9]+:[0-9]+)*", text):
            raise Failed("usage: cas A:E:N ..")
        outcome = self._change([(int(address), int(expected), int(new)) for address, expected, new in (word.split(":") for word in text.split())])
        if not outcome.made:
            raise Failed(f"not made: word {outcome.address} has {outcome.value}")
        self._say("made")

    def do_read(self, text: str) -> None:
        """read A ..: prints the values of up to 16 words, all of one moment; it costs as much as a change"""
        for value in self._client.read(_numbers(text.split(), "read A ..")):
            self._say(str(value))

    def do_set(self, text: str) -> None:
        """set A:N ..: writes N to each address A of up to 16, all at once, whatever they have"""
        if not re.fullmatch(r"[0-9]+:[0-9]+( +[0-9]+:[0-9]+)*", text):
            raise Failed("usage: set A:N ..")
        pairs = [(int(address), int(value)) for address, value in (word.split(":") for word in text.split())]
        values = dict(pairs)
        if len(values) < len(pairs) or len(pairs) > MAX_ENTRIES:
            raise Failed(f"set takes up to {MAX_ENTRIES} addresses, each once")
        self._set(values)
        self._say("made")

    def do_dump(self, text: str) -> None:
        """dump: prints the address and the value of each word that isn't 0; dump --words: all words, for load and mwinit --from; each is of its own moment"""
        if text not in ("", "--words"):
            raise Failed("usage: dump [--words]")
        if text:
            self._say(f"words {self._client.words}\nplaces 1")
        for address, value in enumerate(self._client.get_many(range(self._client.words))):
            if value or text:
                self._say(f"word {address} {value}" if text else f"{address} {value}")

    def do_load(self, text: str) -> None:
        """load FILE: writes the words of a dump, as mwshow and dump print it, 16 at a time; - for standard input"""
        if not text:
            raise Failed("usage: load FILE")
        try:
            with open(0 if text == "-" else text, encoding="ascii", closefd=text != "-") as lines:
                values = words_of_dump(lines, self._client.words)
        except (OSError, UnicodeDecodeError) as error:
            raise Failed(f"can't read {text}: {error}") from error
        addresses = sorted(values)
        for first in range(0, len(addresses), MAX_ENTRIES):
            self._set({address: values[address] for address in addresses[first:first + MAX_ENTRIES]})
        self._say(f"loaded {len(addresses)} words")

    def do_watch(self, text: str) -> None:
        """watch A: prints the value of a word, and each other one that is seen, until Ctrl-C"""
        address, *more = _numbers(text.split(), "watch A")
        if more:
            raise Failed("usage: watch A")
        seen = None
        try:
            while True:
                value = self._client.get(address)
                if value != seen:
                    self._say(str(value))
                seen = value
                time.sleep(WATCH_SECONDS)
        except KeyboardInterrupt:
            if self.stdout.isatty():
                self._say("")


    def _change(self, entries: List[Entry]) -> Outcome:
        """Makes a change, also if the connection had ended before."""
        try:
            return self._client.cas(entries)
        except Lost:
            self._client.reconnect()
            return self._client.cas(entries)

    def _set(self, values: Dict[int, int]) -> None:
        """Gives these words these values, all at once, whatever they have."""
        made = False
        while not made:
            found = self._client.get_many(values)
            made = self._change([(address, old, values[address]) for address, old in zip(values, found)]).made


class AdministratorShell(Shell):
    """The commands of the administrator."""

    def __init__(self, administrator: Administrator) -> None:
        super().__init__("admin> ")
        self._administrator = administrator

    def do_report(self, text: str) -> None:
        """report: prints how each tenant is, and how many more changes the server has room for"""
        if text:
            raise Failed("usage: report")
        report = self._administrator.report()
        self._say(f"{'tenant':16} {'words':>5} {'quota':>5} {'places':>6} {'under way':>9}")
        for tenant in report.tenants:
            self._say(f"{tenant.name:16} {tenant.words:5} {tenant.quota:5} {tenant.places:6} {tenant.under_way:9} "
                      f"{'up' if tenant.up else 'down'}")
        self._say(f"free {report.free}")


def words_of_dump(lines: Iterable[str], words: int) -> Dict[int, int]:
    """The value of each address in a dump, for a tenant with so many words. Failed if it is no dump, or has other addresses."""
    values: Dict[int, int] = {}
    for number, line in enumerate(lines, 1):
        told, count = WORD.fullmatch(line.rstrip("\n")), WORDS.fullmatch(line.rstrip("\n"))
        if count and int(count[1]) > words:
            raise Failed(f"line {number}: the dump has {count[1]} words, and the tenant {words}")
        if told and (int(told[1]) >= words or int(told[1]) in values):
            raise Failed(f"line {number}: the word {told[1]} " + ("is there twice" if int(told[1]) in values else "isn't the tenant's"))
        if told:
            values[int(told[1])] = int(told[2])
        elif not count and not OTHERS.fullmatch(line.rstrip("\n")):
            raise Failed(f"line {number} is of no dump: {line.rstrip()}")
    return values


def _numbers(words: List[str], usage: str) -> List[int]:
    """These words as numbers; at least one."""
    if not words:
        raise Failed(f"usage: {usage}")
    for word in words:
        if not re.fullmatch("[0-9]+", word):
            raise Failed(f"not a number: {word}")
    return [int(word) for word in words]
