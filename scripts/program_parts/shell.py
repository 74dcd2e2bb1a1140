"""The shell, `python3 -m mondlexi`: lines from a pipe, one command of the command line, dumps, TLS, and keys at a terminal.

Used by: scripts/check-programs, tls.py. A further command of the shell has a case here. Nothing here passes or fails by how fast the machine is.
"""
import os
import pty
import select
import signal
import subprocess
import sys
import time

from .common import MWINIT, PATIENCE, WITH_CLIENT, WORDS, Peers, at, has_module, ran, same, wrong

import mondlexi  # noqa: E402

COMMAND = [sys.executable, "-W", "error", "-m", "mondlexi"]
UP, CTRL_D = b"\x10", b"\x04"
NOT_MADE = "mondlexi: not made: word 9 has"
CASES = (
    ("", (), (0, "", "")),
    ("cas 9:0:4 8:0:7\nget 8 9\nget 9", (), (0, "made\n7\n4\n4\n", "")),
    ("\ndump\nquit\nget 0\n", (), (0, "8 7\n9 4\n", "")),
    ("cas 9:3:5\nget 9\n", (), (1, "4\n", f"{NOT_MADE} 4\n")),
    ("", ("get", "9", "9"), (0, "4\n4\n", "")),
    ("", ("--timeout", "20", "read", "9", "8"), (0, "4\n7\n", "")),
    ("", ("set", "9:5", "8:6", "--timeout", "20"), (0, "made\n", "")),
    ("", ("get", "8", "9"), (0, "6\n5\n", "")),
    ("", ("cas", "9:4:1"), (1, "", f"{NOT_MADE} 5\n")),
    ("", ("cas", "9:5:0", "8:6:0"), (0, "made\n", "")),
    ("", ("get", "8", "9"), (0, "0\n0\n", "")),
    ("", ("nothing",), (1, "", "mondlexi: no command: nothing; `help` lists them\n")),
)
"""Lines from a pipe, or one command, one after the other at a tenant whose words are 0, and are again in the end: the status, and what is
written to both streams."""
WRONG_LINES = ("get", "get x", "get -1", f"get {WORDS}", "cas", "cas 0:0", "cas 0:0:0 x", f"cas 0:0:{2 ** 48}", "dump 1", "watch",
               "watch 1 2", "read", "read x", "set", "set 0", "set 0:1 0:2", f"set {WORDS}:1", f"set 0:{2 ** 48}", "set " + 17 * "0:1 ", "load",
               "load /nowhere", "load /dev", "nothing", "report", "!ls")
WRONG_COMMANDS = (("t", "--admin"), ("t", "--words"), ("t", "get", "0", "--words"), ("t", "--key", "k", "get", "0"), ("t", "get", "0", "--none"))
NO_DUMPS = (f"words {WORDS + 1}\n", f"word {WORDS} 1\n", "0 1\n0 1\n", "damage 2 byte 8\n", "word 0\n", "word 0 -1\n", "w\u00f6rter 1\n")


def piped(lines, *words):
    """The status of the shell, and what it writes to both streams, with these lines from a pipe."""
    return ran(*COMMAND, *words, given=lines, timeout=PATIENCE, env=WITH_CLIENT)


def once(*words):
    """The same of one command; nothing is in its standard input."""
    return piped("", *words)


def try_lines(server):
    """Each command, and each failure, from a pipe and on the command line."""
    for lines, words, wanted in CASES:
        same(piped(lines, server.at, "load", *words), wanted, f"the shell of {lines!r} {' '.join(words)}")
    listed = [line.split()[0].rstrip(":") for line in piped("help\n", server.at, "t")[1].splitlines()]
    same(listed, ["cas", "dump", "get", "help", "load", "quit", "read", "set", "watch"], "help")
    status, lines, errors = piped("".join(f"{line}\nget 0\n" for line in WRONG_LINES), server.at, "load")
    same((status, lines), (1, len(WRONG_LINES) * "0\n"), "commands that are wrong")
    same([line.startswith("mondlexi: ") for line in errors.splitlines()], len(WRONG_LINES) * [True], f"their errors: {errors}")
    for status, lines, errors in (piped("report\n", server.at, "--admin"), once(server.at, "--admin", "report")):
        same((status, lines.split("\n")[1].split(), lines.split("\n")[-2], errors), (0, ["t", str(WORDS), "5", "10", "0", "up"], "free 256", ""), "report")
    same(piped("get 0\n", server.at, "--admin")[0], 1, "get of the administrator")
    same(once(server.at, "--admin"), (1, "", "mondlexi: no command came; `report` is one\n"), "no command of the administrator")
    for words in WRONG_COMMANDS:
        status, lines, errors = once(server.at, *words)
        same((status, lines, "usage: " in errors), (2, "", True), f"the command line {words}: {errors}")


def try_dumps(server, folder):
    """A dump is loaded by mwinit, and by load; each form of one, and what is none."""
    with mondlexi.Client(server.at, "t") as client:
        client.cas([(3, client.get(3), 2 ** 48 - 1)])
        values = client.get_many(range(WORDS))
        status, text, errors = once(server.at, "t", "dump", "--words")
        wanted = f"words {WORDS}\nplaces 1\n" + "".join(f"word {address} {value}\n" for address, value in enumerate(values))
        same((status, text, errors), (0, wanted, ""), "dump --words")
        (folder / "dump").write_text(text)
        status, made, _ = ran(MWINIT, "--from", "dump", "of-dump.mw", WORDS, 1, at=folder)
        same((status, made.split()[:1]), (0, ["made"]), "mwinit --from of such a dump")
        same(piped(text, server.at, "t", "load", "-"), (0, f"loaded {WORDS} words\n", ""), "load of standard input")
        same(client.get_many(range(WORDS)), values, "the words after a load of what they are")
        (folder / "few").write_text("second layout at 328\nwords 3\nplaces 4\nopen 0 0 1\nword 0 7\n1 8\n")
        same(once(server.at, "t", "load", folder / "few"), (0, "loaded 2 words\n", ""), "load of a dump of few words")
        same(client.get_many(range(WORDS)), [7, 8, *values[2:]], "the words after that load")
        for wrong_text in NO_DUMPS:
            (folder / "none").write_text(f"0 9\n{wrong_text}", encoding="utf-8")
            status, lines, errors = once(server.at, "t", "load", folder / "none")
            same((status, lines, errors.startswith("mondlexi: "), errors.count("\n")), (1, "", True, 1), f"load of {wrong_text!r}: {errors}")
        same(client.get_many(range(WORDS)), [7, 8, *values[2:]], "the words after loads that are refused")
        same(once(server.at, "t", "load", folder / "dump")[0], 0, "load of the first dump")
        same(client.get_many(range(WORDS)), values, "the words after it")


def try_tls(folder, front, named, name):
    """One command over TLS, with a certificate, at another name than the host, and what fails."""
    trusting = ("--ca", folder / "authority.pem")
    own = (*trusting, "--cert", folder / "client.pem", "--key", folder / "client.key")
    same(once(front, "t", *own, "get", "9")[::2], (0, ""), "get over TLS with a certificate")
    same(once(named, "t", *trusting, "--tls-name", name, "get", "9")[::2], (0, ""), "get over TLS at another name")
    for words in ((front, "t", *trusting, "get", "9"), (named, "t", *trusting, "get", "9"), (named, "t", "--tls", "get", "9"),
                  (front, "t", "--ca", "/nowhere", "get", "9"), ("unix:socket", "t", *trusting, "get", "9")):
        status, lines, errors = once(*words)
        same((status, lines, errors.count("\n"), errors[:10]), (1, "", 1, "mondlexi: "), f"the shell of {words}: {errors}")


def try_connections():
    """Servers that aren't there, and that break off."""
    for words, wanted in (((at(1), "t"), 1), (("nowhere", "t"), 1), ((at(1), "T"), 1), ((at(1),), 2), ((at(1), "t", "--admin"), 2)):
        status, lines, errors = once(*words)
        same((status, lines, "Traceback" in errors), (wanted, "", False), f"the shell of {words}: {errors}")
    status, _, errors = piped("cas 0:0:1\ncas 0:1:2\n", Peers(["OK 9\n", ""], ["OK 9\n", "YES\n", "BYE\n"]).at, "t")
    same((status, errors.count("\n"), "made or not" in errors), (1, 1, True), f"cas that breaks off: {errors}")
    same(once("--version")[:2], (0, f"mondlexi {mondlexi.__version__}\n"), "--version")


class Terminal:
    """The shell at a terminal."""

    def __init__(self, *words):
        self.master, other = pty.openpty()
        # (whoever runs in the background of a shell script ignores SIGINT, and so do its children)
        self.process = subprocess.Popen([*COMMAND, *words], stdin=other, stdout=other, stderr=other, start_new_session=True,
                                        env={**WITH_CLIENT, "TERM": "dumb"}, preexec_fn=lambda: signal.signal(signal.SIGINT, signal.SIG_DFL))
        os.close(other)
        self.shown = b""

    def type(self, keys, *texts):
        """Types keys, and waits until the terminal shows each of these texts; what it has shown until then is forgotten."""
        os.write(self.master, keys)
        for text in texts:
            end = time.monotonic() + PATIENCE
            while text not in self.shown:
                if not select.select([self.master], [], [], max(0, end - time.monotonic()))[0]:
                    wrong(f"the shell shows {self.shown!r} and never {text!r}")
                self.shown += os.read(self.master, 4096)
            self.shown = self.shown.split(text, 1)[1]


def try_a_terminal(server):
    """Completion, history, a word that is watched, Ctrl-C in a command and at the prompt, and the end."""
    with mondlexi.Client(server.at, "t") as client:
        value = client.get(9)
        told = b"get 9\r\n%d\r\n" % value
        terminal = Terminal(server.at, "t")
        terminal.type(b"", b"t: 26 words", b"t> ")
        terminal.type(b"ge\t9\n", told)
        terminal.type(UP + b"\n", told, b"t> ")
        terminal.type(b"watch 9\n", b"\r\n%d\r\n" % value)
        client.cas([(9, value, value ^ 1)])
        terminal.type(b"", b"%d\r\n" % (value ^ 1))
        client.cas([(9, value ^ 1, value)])
    for _ in range(2):
        # Python loses a SIGINT that comes between its prompt and its wait for a key.
        time.sleep(0.5)
        terminal.process.send_signal(signal.SIGINT)
        terminal.type(b"", b"t> ")
    terminal.type(b"get x\n", b"mondlexi: not a number: x\r\n", b"t> ")
    terminal.type(CTRL_D)
    same(terminal.process.wait(PATIENCE), 0, "the status of the shell at a terminal")
    os.close(terminal.master)


def try_shell(server):
    """All of these."""
    try_lines(server)
    try_dumps(server, server.folder)
    try_connections()
    if has_module("readline"):
        try_a_terminal(server)
    print("the shell: each command, from a pipe" + (" and at a terminal" if has_module("readline") else "; Python has no readline"))
