"""The examples of libmondlexi: a lock, at a server that loses replies; and a client over OpenSSL, at a front that speaks TLS, for which
`openssl` makes the certificates.

Used by: builds.py.
"""
import socket
import subprocess
import tempfile
from pathlib import Path
from typing import Callable, Sequence, Tuple

from program_parts.tls import NAME, Front, make_certificates

from .peer import HOST, Different, Peer
from .table import Case, steps_of

Told = Tuple[int, str, str]

GOES_WELL = ("again", "sent GET 0", r"says VAL 5\n", "sent CAS 0:5:6", r"says YES\n", "sent QUIT", r"says BYE\n", "ends")
BREAKS = ("again", "sent GET 0", "shuts", *GOES_WELL)
IS_FULL = ("opens", "shuts")
DONE = (0, "6\n", "")
FULL = "the server closed the connection before any reply"
LONGEST = 30
LOOK = ("sent GET 6", "sent GET 7", "sent GET 6", "sent GET 7")
OWN = 3 << 32 | 1000
"""The holder's word of owner 3, with the example's lease."""
FREE = (*LOOK, r"says VAL 4\nVAL 0\nVAL 4\nVAL 0\n", f"sent CAS 6:4:5 7:0:{OWN}")
RELEASED = (f"sent CAS 6:5:5 7:{OWN}:0", r"says YES\n", "sent QUIT", r"says BYE\n", "ends")
SILENT = ("opens", "sent TENANT t", "ends")
LOST = (*FREE, "shuts", "again", f"sent CAS 6:4:5 7:0:{OWN}", r"says NO 6 5\n", "sent GET 6", r"says VAL 5\n", "sent GET 7")
LOCKS = {
    "a free lock": ("again", *FREE, r"says YES\n", *RELEASED),
    "a lock whose reply was lost": ("again", *LOST, rf"says VAL {OWN}\n", *RELEASED),
    "a lock whose reply and words were lost": ("again", *LOST, "shuts", "again", *LOST[-5:], rf"says VAL {OWN}\n", *RELEASED),
    "a lock whose words came late": ("again", *LOOK, "ends", "again", *FREE, r"says YES\n", *RELEASED),
    "a lock that another has taken": ("again", *LOST, r"says VAL 9\n", *LOOK, r"says VAL 4\nVAL 0\nVAL 4\nVAL 0\n",
                                      f"sent CAS 6:4:5 7:0:{OWN}", r"says YES\n", *RELEASED),
    "a lock whose lease is over": ("again", *LOOK, r"says VAL 4\nVAL 65536\nVAL 4\nVAL 65536\n", *LOOK, r"says VAL 4\nVAL 65536\nVAL 4\nVAL 65536\n",
                                   f"sent CAS 6:4:5 7:65536:{OWN}", r"says YES\n", *RELEASED),
    "a lock whose lease was over before the reply": (
        "again", *FREE, "shuts", *SILENT * 5, "again", f"sent CAS 6:4:5 7:0:{OWN}", r"says NO 6 5\n", "sent GET 6", r"says VAL 5\n",
        "sent GET 7", rf"says VAL {OWN}\n", f"sent CAS 6:5:5 7:{OWN}:0", r"says YES\n", *LOOK, r"says VAL 5\nVAL 0\nVAL 5\nVAL 0\n",
        f"sent CAS 6:5:6 7:0:{OWN}", r"says YES\n", f"sent CAS 6:6:6 7:{OWN}:0", *RELEASED[1:]),
}
"""What the server of a lock hears and says."""
TOKENS = {"a lock whose lease was over before the reply": "6\n"}
"""What the program prints, if it isn't 5."""
TAKEN_OVER = ("again", *FREE, r"says YES\n", RELEASED[0], r"says NO 6 6\n", *RELEASED[2:])
USAGE = (2, "", "usage: lock_table SERVER OWNER LOCK\n")


def told_by(folder: Path, lines: Sequence[str], words: Callable[[str], Sequence[object]]) -> Told:
    """What a program tells at a server that plays these steps, by whose place it is called: its status, what it prints, and what it says
    is wrong. Different if something else came to the server."""
    peer = Peer(Case("of an example", [], [step for line in lines for step in steps_of(line, line)]), folder)
    try:
        told = run(words(peer.at), folder)
        peer.wait()
    finally:
        peer.close()
    return told


def run(words: Sequence[object], folder: Path) -> Told:
    """What a program tells."""
    ended = subprocess.run([str(it) for it in words], cwd=folder, stdin=subprocess.DEVNULL, capture_output=True, text=True, timeout=LONGEST)
    return ended.returncode, ended.stdout, ended.stderr


def check(what: str, told: Told, wanted: Told) -> None:
    """Different if a program told something else."""
    if told != wanted:
        raise Different(f"{what}: {told} in place of {wanted}")


def meaning(told: Told) -> Told:
    """The same with the meaning of the failure alone, without what is told of it."""
    return told[0], told[1], told[2].rpartition("\n")[0].rpartition("\n")[2].partition(":")[0]


def try_locks(program: Path) -> None:
    """The example that takes a lock, and the texts of its failures. Different if anything is the matter."""
    with tempfile.TemporaryDirectory(prefix="locks-") as room:
        folder = Path(room)
        for what, lines in LOCKS.items():
            told = told_by(folder, lines, lambda at: (program, at, 3, 3))
            check(what, (*told[:2], ""), (0, TOKENS.get(what, "5\n"), ""))
        lost = told_by(folder, TAKEN_OVER, lambda at: (program, at, 3, 3))
        check("a lock that another has taken over", lost, (1, "5\nlost\n", ""))
        for owner, lock in ((0, 3), (65536, 3), ("3x", 3), (3, -1), (3, 2048), (3, "")):
            check(f"owner {owner}, lock {lock}", run((program, HOST, owner, lock), folder), USAGE)
        check(HOST, run((program, HOST, 3, 3), folder), (1, "", "lock_table: an argument is out of its range: a server is HOST:PORT or unix:PATH\n"))


def try_secure(program: Path) -> None:
    """The example over OpenSSL, at servers behind a front of TLS, and where it may not connect. Different if anything is the matter."""
    with tempfile.TemporaryDirectory(prefix="secure-") as room:
        folder = Path(room)
        make_certificates(folder)
        for kind, name, lines, wanted in (("host", HOST, GOES_WELL, DONE), ("name", NAME, GOES_WELL, DONE), ("host", HOST, BREAKS, DONE),
                                          ("host", HOST, IS_FULL, (1, "", FULL))):
            told = told_by(folder, lines, lambda at: (program, Front(folder, kind, at).at, name, "authority.pem"))
            check(f"{kind}: {' '.join(lines)}", meaning(told), wanted)
        named = Front(folder, "name", f"{HOST}:1").at
        # Nobody takes what comes there, so that a greeting of TLS gets no answer.
        with socket.create_server((HOST, 0)) as silent:
            for words in ((f"{HOST}:{silent.getsockname()[1]}", HOST, "authority.pem"), (named, HOST, "authority.pem"), (named, NAME, "client.pem")):
                check(" ".join(words), meaning(run((program, *words), folder)), (1, "", "there is no connection"))
