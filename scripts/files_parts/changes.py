"""The random changes of a file: such as leave it whole, and such as damage it, at each limit and beyond it.

Used by: scripts/check-files. A limit or a field that docs/FILES.md gains has a change here, in FIELDS or KINDS.
"""
import random
from typing import Any, Callable, Dict, List

from .drafts import Draft, plant_records, some_bytes, some_entries, some_value
from .reader import FIRST, GREATEST, HEAD, MOST_OFFSET, MOST_READ, MOST_WORDS, SECOND, SET

NEAR_SET = (SET, SET, 0xA4, 0xA1, 0x25, 0x85, 0x5A, 0xE5, 0x01, 0x80, 0xFF, 0x00, 0xB5, 0xAD)
"""Values of a switch byte or commit byte: set, one bit beside it, and others."""
TOO_GREAT = (GREATEST + 1, GREATEST + 2, 1 << 56, (1 << 64) - 1, 1 << 63)
HUGE = (1 << 16, 1 << 32, 1 << 48, 1 << 63)


def any_byte(draft: Draft, dice: random.Random) -> None:
    """A byte, or a bit of it, anywhere, in a head, or where a place begins."""
    near = dice.choice((0, draft.start, draft.place(dice.randrange(draft.places)), dice.randrange(len(draft.data) + 1)))
    at = near + dice.randrange(HEAD)
    old = draft.data[at:at + 1]
    draft.put(at, some_bytes(dice, 1) if dice.random() < 0.5 or not old else bytes([old[0] ^ 1 << dice.randrange(8)]))


def cut(draft: Draft, dice: random.Random) -> None:
    """The end cut off, most often where a part begins or ends."""
    parts = (0, 8, 16, HEAD, draft.start, draft.start + 8, draft.start + HEAD, draft.place(0), draft.end)
    beside = dice.choice(parts) + dice.choice((-1, 0, 1))
    at = dice.choice((beside, beside, draft.start + dice.randrange(HEAD), draft.end - 1, dice.randrange(draft.end + 1)))
    del draft.data[max(0, at):]


def lengthen(draft: Draft, dice: random.Random) -> None:
    """Bytes behind the end, also behind all that is ever read."""
    draft.data += some_bytes(dice, dice.choice((1, 7, 8, 300, dice.randrange(3000), MOST_READ)))


def magic(draft: Draft, dice: random.Random) -> None:
    """Other bytes in the place of a layout's magic bytes: one of them, or those of the other layout."""
    at = dice.choice((0, draft.start, draft.start))
    if dice.random() < 0.5:
        draft.put(at, dice.choice((FIRST.magic, FIRST.magic, SECOND.magic, b"MWCASF3\n")))
    else:
        draft.put(at + dice.choice((0, 7, dice.randrange(8))), some_bytes(dice, 1))


FIELDS = {"number of words": 3, "number of places": 3, "sizes of the first": 1, "offset": 3, "switch byte": 3, "home word": 4}
"""The fields of the heads and the home words, and how often each is changed beside the other KINDS."""


def put_field(draft: Draft, dice: random.Random, name: str) -> None:
    """A field at a limit, beyond it, or another than that which is there. While the switch byte is set the sizes in the file's head
    aren't looked at. A home word may be covered by an open record."""
    beside = {"number of words": (draft.words - 1, draft.words + 1, draft.words + dice.choice(HUGE[:2])),
              "number of places": (draft.places - 1, draft.places + 1, draft.places + 256),
              "offset": (draft.start - 1, draft.start + 1, draft.start + dice.choice(HUGE), draft.end, dice.randrange(MOST_OFFSET + 2))}
    address = dice.choice((0, draft.words - 1, dice.randrange(draft.words)))
    for at, size, values in {
        "number of words": [(draft.start + 8, 4, (0, 1, MOST_WORDS, MOST_WORDS + 1, (1 << 32) - 1, 1 << 31))],
        "number of places": [(draft.start + 12, 2, (0, 1, 32, 33, 64, 65, (1 << 16) - 1, 1 << 15))],
        "sizes of the first": [(8, 4, (0, MOST_WORDS, MOST_WORDS + 1)), (12, 2, (0, 32, 33))],
        "offset": [(16, 8, (0, HEAD - 1, HEAD, MOST_OFFSET, MOST_OFFSET + 1, (1 << 64) - 1))],
        "switch byte": [(15, 1, NEAR_SET)],
        "home word": [(draft.home(address), 8, (GREATEST, *TOO_GREAT))],
    }[name]:
        draft.put_number(at, size, dice.choice((*values, *beside.get(name, ()), dice.getrandbits(8 * size))))


def move(draft: Draft, dice: random.Random) -> None:
    """The second layout moved to another offset, at its bounds, beyond them, or over the first layout's body."""
    if draft.layout is not SECOND:
        return
    at = dice.choice((HEAD - 1, HEAD, HEAD + 1, MOST_OFFSET, MOST_OFFSET + 1, dice.randrange(HEAD, MOST_OFFSET)))
    part = draft.data[draft.start:]
    before = draft.data[:min(at, draft.start)]
    draft.data = before + some_bytes(dice, at - len(before)) + part
    draft.put_number(16, 8, at)
    draft.start = at


def resize(draft: Draft, dice: random.Random) -> None:
    """A second layout of other numbers of words and places, which need not be those of the first; it may have a place too many."""
    if draft.layout is not SECOND:
        return
    words = dice.choice((1, 2, 15, 16, 17, dice.randint(1, 300), MOST_WORDS))
    places = dice.choice((1, 2, 3, 31, 32, 33, 63, 64, 65))
    length = HEAD + 8 * words + SECOND.place * places
    head = SECOND.magic + words.to_bytes(4, "little") + places.to_bytes(2, "little")
    draft.data[draft.start:] = head + bytes(length - len(head))
    draft.begin_at(min(draft.start, len(draft.data) - length))
    plant_records(draft, dice, dice.choice((0, 1, places)))


def commit_byte(draft: Draft, dice: random.Random) -> None:
    """The commit byte of a place, as the switch byte; what stands behind it may be a record, or not."""
    place = dice.randrange(draft.places)
    if dice.random() < 0.5:
        draft.put(draft.place(place) + 1, some_bytes(dice, draft.layout.place - 1))
    draft.put_number(draft.place(place), 1, dice.choice(NEAR_SET))


def record_at(draft: Draft, dice: random.Random) -> int:
    """Where the place of an open record begins, which is planted where there is none."""
    opened = [place for place in range(draft.places) if draft.is_open(place)]
    place = dice.choice(opened) if opened else dice.randrange(draft.places)
    if not opened:
        draft.put_record(place, some_entries(dice, draft, draft.layout.most_entries))
    return draft.place(place)


def count(draft: Draft, dice: random.Random) -> None:
    """How many entries an open record says it has, at a limit, beyond it, and more or fewer than it has; it may be full."""
    at, most = record_at(draft, dice), draft.layout.most_entries
    if draft.words >= most and dice.random() < 0.4:
        draft.put_record((at - draft.place(0)) // draft.layout.place, [(address, 0) for address in range(most)])
    draft.put_number(at + 1, 1, dice.choice((0, 1, most - 1, most, most + 1, 2 * most, 255, dice.getrandbits(8))))


def addresses(draft: Draft, dice: random.Random) -> None:
    """An open record, with the addresses of two entries equal, falling, or one behind the words or far beyond."""
    most = min(draft.layout.most_entries, draft.words)
    chosen = sorted(dice.sample(range(draft.words), dice.randint(1, most)))
    index = dice.randrange(len(chosen))
    wrong = dice.choice(("equal", "falling", "behind", "beyond", "behind the last"))
    if wrong == "equal":
        chosen.insert(index, chosen[index])
    elif wrong == "falling" and index:
        chosen[index - 1:index + 1] = chosen[index], chosen[index - 1]
    elif wrong == "behind the last":
        chosen.append(dice.choice((draft.words, draft.words + 1, *(power + draft.words for power in HUGE))))
    else:
        chosen[index] = draft.words if wrong == "behind" else chosen[index] + dice.choice(HUGE)
    entries = [(address, some_value(dice)) for address in chosen[:draft.layout.most_entries]]
    draft.put_record(dice.randrange(draft.places), entries)


def shared(draft: Draft, dice: random.Random) -> None:
    """Two or three open records, of which all have one address."""
    address = dice.randrange(draft.words)
    for place in dice.sample(range(draft.places), min(draft.places, dice.choice((2, 2, 3)))):
        others = dict(some_entries(dice, draft, draft.layout.most_entries - 1))
        others[address] = some_value(dice)
        draft.put_record(place, sorted(others.items()))


def new_value(draft: Draft, dice: random.Random) -> None:
    """A new value of an open record that is the greatest or above it; its entry may count or not."""
    at = record_at(draft, dice)
    entries = min(draft.layout.most_entries, max(1, draft.data[at + 1]) if at + 1 < len(draft.data) else 1)
    entry = dice.choice((0, entries - 1, dice.randrange(entries), min(entries, draft.layout.most_entries - 1)))
    draft.put_number(at + 16 + 16 * entry, 8, dice.choice((GREATEST, *TOO_GREAT)))


def several(draft: Draft, dice: random.Random) -> None:
    """Several of the damages that open records and words may have, each in a place of its own or not."""
    kinds = (count, addresses, shared, new_value, lambda draft, dice: put_field(draft, dice, "home word"))
    for damage in dice.choice((dice.sample(kinds, dice.choice((2, 2, 3, 5))), kinds[3:])):
        damage(draft, dice)


def not_looked_at(draft: Draft, dice: random.Random) -> None:
    """Any bytes where nobody looks: in the heads, in places, behind the entries that count, and, while the switch byte is set, from the
    file's head to the second layout."""
    place = dice.randrange(draft.places)
    at = draft.place(place)
    draft.put(14, some_bytes(dice, 1))
    draft.put(24, some_bytes(dice, 8))
    if draft.start:
        draft.put(draft.start + 14, some_bytes(dice, 18))
        if dice.random() < 0.3:
            draft.put(HEAD, some_bytes(dice, max(0, draft.start - HEAD)))
    draft.put(at + 2, some_bytes(dice, 6))
    entries = draft.data[at + 1] if at + 1 < len(draft.data) and draft.is_open(place) else 0
    used = 8 + 16 * entries
    draft.put(at + used, some_bytes(dice, max(0, draft.layout.place - used)))


KINDS: Dict[Callable[[Draft, random.Random], None], int] = {
    any_byte: 6, cut: 3, lengthen: 2, magic: 2, move: 4, resize: 3, commit_byte: 3, count: 3, addresses: 3, shared: 4,
    new_value: 4, several: 4, not_looked_at: 3,
}
"""The other changes, and how often each is taken."""


def change(draft: Draft, dice: random.Random) -> List[str]:
    """Makes some changes, or none, and tells their names: several damages in one file show in which order they are found."""
    number = dice.choice((0, 1, 1, 1, 2, 2, 2, 3, 3, 4, 5))
    weights: Dict[Any, int] = {**KINDS, **FIELDS}
    kinds = dice.choices(list(weights), list(weights.values()), k=number)
    for kind in kinds:
        if kind in FIELDS:
            put_field(draft, dice, kind)
        else:
            kind(draft, dice)
    return [kind if kind in FIELDS else kind.__name__.replace("_", " ") for kind in kinds]
