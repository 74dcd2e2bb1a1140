"""Tries the images of power cuts on planted programs.

Some write as docs/FILES.md says: none of their images may be refused. The others forget a sync, change the order of writes or
answer too early: of each, some images must be refused. Some make one change after the other. The others make two to four changes
that share syncs; the fourth has the place of the first.

Used by: scripts/soak --self-test. If a change is written in another order of calls (docs/FILES.md), the right writers do so here.
"""
import itertools
import random
from typing import Iterator, List, NamedTuple, Sequence, Tuple

from files_parts.reader import HEAD

from .history import Answer, Entry, Reply, Request
from .layout import SECOND, SET, body, opened_file, read_file, second_at
from .power import moments_of
from .recording import Call, FileLog, Kind, images_of
from .server import Tenant

TENANT = Tenant("t", 8, 4, 2)
AT = second_at(TENANT.words, TENANT.places)
PLACES = 3
"""How many record places are used: the fourth change of a round has the place of the first."""
ROUNDS = 3
RECORD, OPEN_RECORD, COMMIT, HOMES, CLEAR, ANSWER, SYNC = "rochxas"
"""The steps of a change: its record is written (a record and its commit byte at once), its commit byte is set, its words are written,
its commit byte is cleared, it is answered; and a sync."""


class Writer(NamedTuple):
    """A program that makes rounds of changes, each round in these steps: a letter and the changes of the round that make the step.
    `shares_words`: any two changes of a round share words; else none do."""
    name: str
    text: str
    is_right: bool = False
    shares_words: bool = False

    def steps(self) -> Iterator[Tuple[str, int]]:
        """Each step of each change."""
        return ((word[0], int(change)) for word in self.text.split() for change in word[1:] or "0")

    def changes(self) -> int:
        """How many changes a round has."""
        return 1 + max(change for _, change in self.steps())


FOURTH = "r3 s c3 s h3 s x3 s a3"
SEALED = "r012 s c0 s c1 s c2 s"
SETTLED = "h012 s x012 s"
WRITERS = (
    Writer("as it should be", "r0 s c0 s h0 s x0 s a0", is_right=True),
    Writer("an answer as soon as the commit byte is synced", "r0 s c0 s a0 h0 s x0 s", is_right=True),
    Writer("no sync before the commit byte", "r0 c0 s h0 s x0 s a0"),
    Writer("no sync of the commit byte", "r0 s c0 h0 s x0 s a0"),
    Writer("no sync of the home words", "r0 s c0 s h0 x0 s a0"),
    Writer("no sync of the cleared byte", "r0 s c0 s h0 s x0 a0"),
    Writer("no sync at all", "r0 c0 h0 x0 a0"),
    Writer("an answer before the commit byte is synced", "r0 s c0 a0 s h0 s x0 s"),
    Writer("home words before the commit byte", "h0 s r0 s c0 s x0 s a0"),
    Writer("the byte cleared before the home words", "r0 s c0 s x0 s h0 s a0"),
    Writer("no record", "h0 s a0"),
    # Changes that share syncs.
    Writer("syncs of a prepare and a settle are shared", f"{SEALED} {SETTLED} a012 {FOURTH}", is_right=True),
    Writer("syncs of a seal and a settle are shared with records that wait",
           f"r0 s r1 c0 s c1 s r2 h01 s x01 s a01 c2 s h2 s x2 s a2 {FOURTH}", is_right=True),
    Writer("answers as soon as the commit bytes are synced", f"r012 s c0 s a0 c1 s a1 c2 s a2 {SETTLED} {FOURTH}", is_right=True),
    Writer("records that wait have their commit bytes set", f"r0 o12 s c0 s c1 s c2 s {SETTLED} a012 {FOURTH}"),
    Writer("a record that is written along is sealed by the same sync", f"r0 s r1 c01 s a01 h01 s x01 s r2 s c2 s h2 s x2 s a2 {FOURTH}"),
    Writer("the home words of a record that is not sealed", f"r012 s c0 s h01 s c1 s c2 s {SETTLED} a012 {FOURTH}"),
    Writer("bytes cleared before the home words of their own places", f"{SEALED} a012 h0 s x012 s h12 s {FOURTH}"),
    Writer("a place given away before its clearing is synced", f"{SEALED} h012 s x012 r3 s a012 c3 s h3 s x3 s a3"),
    Writer("a record written over a sealed one", f"{SEALED} r3 {SETTLED} a012 c3 s h3 s x3 s a3"),
    Writer("a place sealed that has another change's record by now", f"r012 s r3 s c0 s a0 c1 s c2 s {SETTLED} a12 {FOURTH}"),
    Writer("an answer after another change's commit byte", f"r012 s c1 s a0 c0 s c2 s {SETTLED} a12 {FOURTH}"),
    Writer("two sealed changes of the same word", "r0 s c0 s r1 s c1 s h01 s x01 s a01", shares_words=True),
)


def writes_of(step: str, change: int, entries: Sequence[Entry]) -> List[Tuple[int, bytes]]:
    """What a step of a change writes, and where."""
    if step == HOMES:
        return [(AT + HEAD + 8 * entry.address, entry.new.to_bytes(8, "little")) for entry in entries]
    place = AT + SECOND.place_at(TENANT.words, change % PLACES)
    record = body([(entry.address, entry.new) for entry in entries])
    return [{RECORD: (place + 1, record), OPEN_RECORD: (place, bytes([SET]) + record),
             COMMIT: (place, bytes([SET])), CLEAR: (place, b"\0")}[step]]


def random_round(writer: Writer, words: List[int], values: Iterator[int], dice: random.Random) -> List[List[Entry]]:
    """The changes of a round, each of a few of these words, which it then changes."""
    shuffled, count = dice.sample(range(TENANT.words), TENANT.words), writer.changes()
    changes = []
    for number in range(count):
        own = shuffled if writer.shares_words else shuffled[number::count]
        addresses = sorted(own[:dice.randint(2, len(own))])
        changes.append([Entry(address, words[address], 1000 * next(values)) for address in addresses])
        for entry in changes[-1]:
            words[entry.address] = entry.new
    return changes


def recorded(writer: Writer, dice: random.Random) -> Tuple[FileLog, List[Request]]:
    """What would be recorded of such a program, and what its clients asked and were told."""
    log, requests, clock = FileLog(), [], itertools.count(1)
    words, values = [0] * TENANT.words, itertools.count(1)
    for _ in range(ROUNDS):
        changes = random_round(writer, words, values, dice)
        asked = [Request(session, next(clock), entries=tuple(entries)) for session, entries in enumerate(changes)]
        requests += asked
        for step, change in writer.steps():
            if step == ANSWER:
                asked[change].told = asked[change].until = next(clock)
                asked[change].reply = Reply(Answer.YES)
            elif step == SYNC:
                log.calls.append(Call(Kind.SYNC, next(clock), went_well=True))
            else:
                log.calls += [Call(Kind.WRITE, next(clock), at, data, True) for at, data in writes_of(step, change, changes[change])]
    return log, requests


def tried(writer: Writer, dice: random.Random) -> Tuple[int, int]:
    """How many images there are of such a program, and how many of them are refused."""
    log, requests = recorded(writer, dice)
    count = refused = 0
    for moment in moments_of(TENANT, opened_file(TENANT.words, TENANT.places), log, requests):
        for one in map(moment.image, images_of(moment.disk, dice)):
            contents = read_file(one.data)
            count += 1
            refused += contents.damage is not None or bool(one.known.verdict(TENANT, contents.words).complaints)
    return count, refused


def try_writers(dice: random.Random) -> Tuple[List[str], str]:
    """All of these programs: what went wrong, and a line on what was tried."""
    wrong, images, right = [], 0, sum(writer.is_right for writer in WRITERS)
    for writer in WRITERS:
        count, refused = tried(writer, dice)
        images += count
        if bool(refused) == writer.is_right:
            wrong.append(f"{writer.name}: {refused or 'none'} of {count} images refused")
    return wrong, (f"images: {images}; none refused of {right} programs that write as they should, some of each "
                   f"of {len(WRITERS) - right} that don't")
