"""Files that are made of a dump: that they have its words, and that any other dump is refused and nothing touched.

Used by: scripts/check-programs, for --gate too: it takes a second or two.
"""
import random
from pathlib import Path

from .common import BUILT, MWINIT, Server, ran, same, well

import mondlexi  # noqa: E402

MWSHOW = BUILT["mwshow"]
MOST = (1 << 48) - 1
WHOLE = "words 3\nplaces 2\nword 0 1\nword 1 0\nword 2 7\n"
OPENED = "second layout at 328\nwords 3\nplaces 4\nopen 0 0 1\nopen 3 2 7\nword 0 1\nword 1 0\nword 2 7\n"
REFUSED = (
    ("", 1), ("\n", 1), (WHOLE[:-1], 5), (WHOLE + "\n", 6), (WHOLE + "word 3 0\n", 6),
    (WHOLE.replace("word 1 0\n", ""), 4), (WHOLE.replace("word 2 7\n", ""), 5), (WHOLE.replace("word 1 0\n", "word 1 00\n"), 4),
    (WHOLE.replace("word 1 0\nword 2 7\n", "word 2 7\nword 1 0\n"), 4), (WHOLE.replace("word 0 1\n", "word 0 +1\n"), 3),
    (WHOLE.replace("word 2 7\n", f"word 2 {MOST + 1}\n"), 5), (WHOLE.replace("word 2 7\n", f"word 2 {1 << 64}\n"), 5),
    (WHOLE.replace("word 2 7\n", "word 2 \n"), 5), (WHOLE.replace("\n", "\r\n"), 1), (WHOLE.replace("places 2\n", ""), 2),
    (WHOLE.replace("words 3", "words 2"), 5), (WHOLE.replace("words 3", "words 4"), 6), ("words 0\nplaces 2\n", 3),
    (WHOLE + WHOLE, 6), (OPENED.replace("open 3 2 7", "open 3 2"), 5), ("damage 6 byte 31\n", 1),
    ("words 3\nplaces 2\nword 0 1\nword 2 7\n", 4), (300_000 * "x", 1), (WHOLE.replace("places 2", f"places {(1 << 64) + 1}"), 2),
)
"""Texts that are no whole dump, and the first line that isn't as it must be."""
MORE = (
    ("words 5\nplaces 2\n" + "".join(f"word {address} 0\n" for address in range(5)), "more words in the dump", "WORDS must be at least 5, and is 4"),
    (WHOLE.replace("places 2", "places 3"), "more places in the dump", "PLACES must be at least 3, and is 2"),
    (OPENED.replace("places 4", "places 5"), "more places in the dump", "PLACES must be at least 3, and is 2"),
)
"""Dumps of which no file of 4 words and 2 places is made, and why."""


def try_refused(folder: Path) -> None:
    """Each is refused, and no file is made, and one that is there isn't touched."""
    cases = [*((text, "not a whole dump", f"line {line} isn't as mwshow --words prints it") for text, line in REFUSED), *MORE]
    for number, (text, what, why) in enumerate(cases):
        (folder / "dump").write_text(text)
        told = (1, "", f"mwinit: {what}\nmwinit: {why}\n")
        same(ran(MWINIT, "--from", "dump", "new.mw", 4, 2, at=folder), told, f"mwinit of the dump {number}, {text[:40]!r}")
        same((folder / "new.mw").exists(), False, f"that there is no file of the dump {number}")
    (folder / "dump").write_text(WHOLE)
    (folder / "kept").write_text("kept")
    for dump, to, why in (("nowhere", "new.mw", "cannot read the dump\nmwinit: No such file or directory (os error 2)"),
                          (".", "new.mw", "cannot read the dump\nmwinit: Is a directory (os error 21)"),
                          ("dump", "kept", "cannot make\nmwinit: the file: File exists (os error 17)")):
        same(ran(MWINIT, "--from", dump, to, 4, 2, at=folder), (1, "", f"mwinit: {why}\n"), f"mwinit --from {dump} {to}")
    same((folder / "kept").read_text(), "kept", "a file that was there")


def try_made(folder: Path) -> None:
    """Files of dumps have their words, as mwshow tells, and 0 behind them. A dump of the largest file, with great values, comes back as it was."""
    for text in (WHOLE, OPENED):
        for words, places in ((3, 2), (3, 32), (4096, 2)):
            (folder / "dump").write_text(text)
            made = f"{text[:5]}-{words}-{places}.mw"
            same(ran(MWINIT, "--from", "dump", made, words, places, at=folder), (0, f"made {32 + 8 * words + 136 * places}\n", ""), f"mwinit {made}")
            lines = [f"words {words}", f"places {places}", "word 0 1", "word 1 0", "word 2 7", *(f"word {address} 0" for address in range(3, words))]
            same(ran(MWSHOW, "--words", made, at=folder), (0, "".join(f"{line}\n" for line in lines), ""), f"mwshow of {made}")
    same((folder / made).stat().st_mode & 0o777, 0o600, "the mode of a file that was made of a dump")
    chosen = random.Random(46)
    values = [chosen.choice((0, 1, MOST, chosen.randrange(MOST))) for _ in range(4096)]
    text = "words 4096\nplaces 32\n" + "".join(f"word {address} {value}\n" for address, value in enumerate(values))
    entries = "".join(f"open {place} {16 * place + number} {values[16 * place + number]}\n" for place in range(64) for number in range(16))
    (folder / "dump").write_text("second layout at 37152\n" + text.replace("places 32\n", f"places 64\n{entries}"))
    same(ran(MWINIT, "--from", "dump", "largest.mw", 4096, 32, at=folder)[0], 0, "mwinit of the largest dump")
    same(ran(MWSHOW, "--words", "largest.mw", at=folder), (0, text, ""), "mwshow of the file of the largest dump")


def try_grown(folder: Path) -> None:
    """A tenant that was served grows: its words are served from the larger file."""
    room = folder / "served"
    room.mkdir()
    with Server(room, {"t": 26}, True) as server:
        with mondlexi.Client(server.at, "t") as client:
            same(bool(client.cas([(0, 0, 5), (25, 0, MOST)])), True, "cas of a tenant that is to grow")
        server.kill()
        (room / "dump").write_text(well(MWSHOW, "--words", "t.mw", at=room))
        well(MWINIT, "--from", "dump", "t.new", 50, 8, at=room)
        (room / "t.new").rename(room / "t.mw")
        (room / "tenants").write_text((room / "tenants").read_text().replace("t 26 5 t.mw", "t 50 16 t.mw"))
        same(server.start(), True, "a server of the larger file")
        with mondlexi.Client(server.at, "t") as client:
            same(client.get_many(range(50)), [5] + 24 * [0] + [MOST] + 24 * [0], "the words of the larger file")


def try_dumps(folder: Path) -> None:
    """All of these."""
    folder.mkdir()
    for trial in (try_refused, try_made, try_grown):
        trial(folder)
    print(f"dumps: files have their words, and grow; {len(REFUSED) + len(MORE)} others are refused")
