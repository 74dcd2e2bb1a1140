"""Readers with one mistake each: the reader's own text with one part of it put otherwise. Each has to be noticed.

Used by: scripts/check-files --self-test. If the text of a mistake isn't once in reader.py any more, write it anew. A rule that reader.py
gains has a mistake here.
"""
from pathlib import Path
from typing import Any, Callable, Dict

READER = Path(__file__).resolve().parent / "reader.py"
Reader = Callable[[bytes], Any]


def refusal(condition: str, damage: str, depth: int = 4) -> str:
    """The lines of the reader that refuse a file."""
    return f"{' ' * depth}if {condition}:\n{' ' * depth}    raise Damage({damage})\n"


# The reader's checks, in their order.
SHORT = refusal("len(data) < HEAD", "6, len(data)")
MAGIC = refusal("data[:8] != FIRST.magic", "1, 0")
OFFSET = refusal("not LEAST_OFFSET <= offset <= MOST_OFFSET", "7, 16")
SHORT_SECOND = refusal("len(data) < offset + HEAD", "6, len(data)")
SECOND_MAGIC = refusal("data[offset:offset + 8] != SECOND.magic", "7, offset")
WORDS = refusal("not 1 <= words <= MOST_WORDS", "2, start + 8")
PLACES = refusal("not 1 <= places <= layout.most_places", "2, start + 12")
SIZE = refusal("len(data) < start + layout.place_at(words, places)", "6, len(data)")
EACH_RECORD = refusal("not is_well_formed(record, layout, words)", "4, record.at", 8)
COVERED = "    covered = covered_addresses(records)\n"
FORM = f"    for record in records:\n{EACH_RECORD}{COVERED}"
EACH_VALUE = refusal("any(value > GREATEST for _, value in record.entries)", "3, record.at", 8)
VALUES = f"    for record in records:\n{EACH_VALUE}"
READ_HOME = "    values = [number(data, home + 8 * address, 8) for address in range(words)]\n"
HOME = f"""    for address, value in enumerate(values):
        # A crash may have left anything in a home word that an open record covers.
{refusal("value > GREATEST and address not in covered", "3, home + 8 * address", 8)}"""
# And some of their parts.
SIZES_OF_THE_FIRST = "    sizes(data, FIRST, 0)\n"
UNCHECKED = "{one for record in records for one, _ in record.entries}"
RISING = "all(low < high for low, high in zip(addresses, addresses[1:]))"
COUNTED = "range(at + 8, at + 8 + 16 * min(count, layout.most_entries), 16)"
BOUNDS = "LEAST_OFFSET, MOST_OFFSET = 32, 37152"
OF_FIRST, OF_SECOND = 'b"MWCASF1\\n", 32, 8)', 'b"MWCASF2\\n", 64, 16)'

MISTAKES = (
    # What the reader does wrong; a text that is in it once, and the text in its place. First: what is set.
    ("any commit byte but 0 is set", "if data[at] == SET:", "if data[at] != 0:"),
    ("a commit byte's highest bit decides", "if data[at] == SET:", "if data[at] & 0x80:"),
    ("a commit byte of which one bit is wrong is set", "if data[at] == SET:", "if bin(data[at] ^ SET).count('1') < 2:"),
    ("any switch byte but 0 is set", "if data[15] != SET:", "if data[15] == 0:"),
    ("a switch byte's highest bit decides", "if data[15] != SET:", "if not data[15] & 0x80:"),
    ("the switch byte isn't looked at", "if data[15] != SET:", "if True:"),
    ("a switch byte is set only where an offset stands", "if data[15] != SET:", "if data[15] != SET or not any(data[16:24]):"),
    # The first damages, and their order.
    ("magic bytes are looked at before the length", SHORT + MAGIC, MAGIC + SHORT),
    ("the first layout's magic bytes aren't looked at", MAGIC, ""),
    ("the last of the magic bytes isn't looked at", "data[:8] != FIRST.magic", "data[:7] != FIRST.magic[:7]"),
    ("the second layout's magic bytes aren't looked at", SECOND_MAGIC, ""),
    ("a second layout may have the first's magic bytes", "!= SECOND.magic", "not in (FIRST.magic, SECOND.magic)"),
    ("an offset is not looked at", OFFSET, ""),
    ("an offset may be 31", BOUNDS, BOUNDS.replace("32,", "31,")),
    ("an offset may not be 32", BOUNDS, BOUNDS.replace("32,", "33,")),
    ("an offset may be 37153", BOUNDS, BOUNDS.replace("37152", "37153")),
    ("an offset may not be 37152", BOUNDS, BOUNDS.replace("37152", "37151")),
    ("an offset has four bytes", "number(data, 16, 8)", "number(data, 16, 4)"),
    ("an offset has six bytes", "number(data, 16, 8)", "number(data, 16, 6)"),
    ("the second layout begins where the first ends", "offset = number(data, 16, 8)",
     "offset = 32 + 8 * number(data, 8, 4) + 136 * number(data, 12, 2)"),
    ("an offset is looked at behind what is there", OFFSET + SHORT_SECOND, SHORT_SECOND + OFFSET),
    ("the second magic bytes are looked at before the length", SHORT_SECOND + SECOND_MAGIC,
     SECOND_MAGIC.replace("offset:offset + 8] !=", "offset:offset + 8] and data[offset:offset + 8] !=") + SHORT_SECOND),
    ("the first layout's sizes are looked at where it says nothing", "    # The second layout need not",
     SIZES_OF_THE_FIRST + "    # The second layout need not"),
    ("the first layout's sizes are looked at behind the second's", "    return SECOND, offset\n",
     SIZES_OF_THE_FIRST + "    return SECOND, offset\n"),
    # Sizes.
    ("the number of words has two bytes", "number(data, start + 8, 4)", "number(data, start + 8, 2)"),
    ("the number of places has one byte", "number(data, start + 12, 2)", "number(data, start + 12, 1)"),
    ("the number of places has three bytes", "number(data, start + 12, 2)", "number(data, start + 12, 3)"),
    ("numbers have the highest byte first", '"little"', '"big"'),
    ("a file may have no words", "if not 1 <= words", "if not 0 <= words"),
    ("a file may not have the most words", "<= words <= MOST_WORDS", "<= words < MOST_WORDS"),
    ("a file may have a word too many", "MOST_WORDS = 4096", "MOST_WORDS = 4097"),
    ("a file may have no places", "if not 1 <= places", "if not 0 <= places"),
    ("a first layout may have 33 places", OF_FIRST, OF_FIRST.replace("32", "33")),
    ("a first layout may not have 32 places", OF_FIRST, OF_FIRST.replace("32", "31")),
    ("a second layout may have 65 places", OF_SECOND, OF_SECOND.replace("64", "65")),
    ("a second layout may not have 64 places", OF_SECOND, OF_SECOND.replace("64", "63")),
    ("places are looked at before words", WORDS + PLACES, PLACES + WORDS),
    ("the size is looked at before the numbers", WORDS + PLACES + SIZE, SIZE + WORDS + PLACES),
    ("a byte may be missing", "if len(data) < start", "if len(data) + 1 < start"),
    ("no byte may follow", "if len(data) < start", "if len(data) != start"),
    ("one byte too few is read", "MOST_READ = 86848", "MOST_READ = 86847"),
    ("the size leaves out the offset", "if len(data) < start + ", "if len(data) < "),
    # Records.
    ("a record may have no entry", "    if not 1 <= record.count",
     "    if record.count == 0:\n        return True\n    if not 0 <= record.count"),
    ("a record has its most entries at most, whatever it says", "<= record.count <= layout.most_entries", "<= record.count"),
    ("a record has one entry less at most", "record.count <= layout.most_entries", "record.count < layout.most_entries"),
    ("a first layout's records have up to 16 entries", OF_FIRST, OF_FIRST.replace("8)", "16)")),
    ("a second layout's records have up to 8 entries", OF_SECOND, OF_SECOND.replace("16)", "8)")),
    ("all entries count", COUNTED, "range(at + 8, at + layout.place, 16)"),
    ("the last entry is left out", "min(count, layout.most_entries)", "min(max(count - 1, 1), layout.most_entries)"),
    ("a count has two bytes", "count = data[at + 1]", "count = number(data, at + 1, 2)"),
    ("an address may be the number of words", "addresses[-1] < words", "addresses[-1] <= words"),
    ("an address may be any", "addresses[-1] < words and", ""),
    ("only the first address is looked at", "addresses[-1] < words", "addresses[0] < words"),
    ("an address has four bytes", "(number(data, entry, 8),", "(number(data, entry, 4),"),
    ("an address has six bytes", "(number(data, entry, 8),", "(number(data, entry, 6),"),
    ("two addresses may be equal", "low < high", "low <= high"),
    ("addresses may fall", "low < high", "low != high"),
    ("addresses may be in any order", f" and {RISING}", ""),
    ("records may share an address", "if covered & addresses:", "if False:"),
    ("only neighbours may not share an address", "covered |= addresses", "covered = addresses"),
    ("an address is shared only by records with the same first one", "if covered & addresses:", "if covered & {record.entries[0][0]}:"),
    # Values.
    ("a value may be 2^48", "GREATEST = 2 ** 48 - 1", "GREATEST = 2 ** 48"),
    ("a value may not be 2^48 - 1", "GREATEST = 2 ** 48 - 1", "GREATEST = 2 ** 48 - 2"),
    ("new values may be any", VALUES, ""),
    ("home words may be any", HOME, ""),
    ("home words that are covered are looked at", "if value > GREATEST and address not in covered:", "if value > GREATEST:"),
    ("only the first new value is looked at", "for _, value in record.entries):", "for _, value in record.entries[:1]):"),
    ("a value has six bytes", "number(data, entry + 8, 8)", "number(data, entry + 8, 6)"),
    ("a home word has six bytes", READ_HOME, READ_HOME.replace(", 8) for", ", 6) for")),
    ("records aren't put over the words", "values[address] = value", "pass"),
    # The order of the last damages.
    ("shared addresses are looked for before malformed records", FORM, COVERED + FORM),
    ("new values are looked at before malformed records", FORM + VALUES, VALUES + FORM),
    ("new values are looked at before shared addresses", COVERED + VALUES, VALUES + COVERED),
    ("each place is looked at for all before the next one", EACH_RECORD,
     f"{EACH_RECORD}        covered_addresses(records[:records.index(record) + 1])\n{EACH_VALUE}"),
    ("home words are looked at before records", FORM, READ_HOME + HOME.replace("in covered", f"in {UNCHECKED}") + FORM),
    ("home words are looked at before new values", VALUES + READ_HOME + HOME, READ_HOME + HOME + VALUES),
)


def wrong_readers() -> Dict[str, Reader]:
    """The reader with each mistake, by the name of the mistake."""
    text, readers = READER.read_text(), {}
    for mistake, old, new in MISTAKES:
        if text.count(old) != 1:
            raise SystemExit(f"check-files: the text for '{mistake}' stands {text.count(old)} times in the reader")
        names: Dict[str, Any] = {"__name__": f"wrong_reader: {mistake}"}
        exec(compile(text.replace(old, new), str(READER), "exec"), names)
        readers[mistake] = names["read"]
    return readers
