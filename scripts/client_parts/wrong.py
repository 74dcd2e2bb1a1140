"""Wrong clients: each is the client in C with one fault, and the case of clients/cases that must find it. So the table is seen to see.

Used by: scripts/check-clients --wrong. If the text of a fault isn't in the client any more, write it anew.
"""
import shutil
import subprocess
from pathlib import Path
from typing import NamedTuple, Optional, Sequence

from .cases import play_all
from .table import Case

SOURCE = Path(__file__).resolve().parent.parent.parent / "clients/c"


class Wrong(NamedTuple):
    """A fault: what is wrong, a text of a file and what is in its place, and the name of the case that finds it."""
    what: str
    file: str
    old: str
    new: str
    case: str


LINK = (
    ("its pauses don't grow", "*pause = 2 * *pause < LONGEST_PAUSE ? 2 * *pause : LONGEST_PAUSE;", "",
     "the pauses of a change that is busy grow, to a quarter of a second"),
    ("its pauses grow without an end", "2 * *pause < LONGEST_PAUSE ? 2 * *pause : LONGEST_PAUSE;", "2 * *pause;",
     "the pauses of a change that is busy grow, to a quarter of a second"),
    ("its pauses are not random", "half + (int64_t)(client->dice % (uint64_t)(half + 1))", "2 * half",
     "the pauses of a change that is busy grow, to a quarter of a second"),
    ("its pauses are all half as long as they may be", "half + (int64_t)(client->dice % (uint64_t)(half + 1))", "half",
     "the pauses of a read that is busy grow, to a quarter of a second"),
    ("its pauses may be none", "half + (int64_t)(client->dice % (uint64_t)(half + 1))", "(int64_t)(client->dice % (uint64_t)(2 * half + 1))",
     "the pauses of a count without patience grow, to a quarter of a second"),
    ("it doesn't wait for room at a local socket", "error != EINTR && (error != EAGAIN || !mdx_pause(client, &pause, end))",
     "error != EINTR", "a local socket that has room again"),
    ("it takes each lost reply for a full server", "client->is_silent = 0;", "", "a change whose connection breaks"),
    ("it takes a full server for a lost connection", "    client->is_silent = 1;\n", "    client->is_silent = 0;\n", "a server that is full"),
    ("it takes a reply that broke off for the beginning of the next", "client->begin = client->end = 0;\n    client->is_silent",
     "client->is_silent", "get whose reply breaks off"),
    ("it doesn't end its writing side", "shutdown(client->fd, SHUT_WR)", "0", "the client ends its writing side alone, and reads to the end"),
)
SESSION = (
    ("it waits for the end of a line that is too long", "if (stop || size > MAX_REPLY) {", "if (stop) {", "a line that doesn't end"),
    ("it believes a reply with a byte 0 in it", "&& !memchr(from, 0, (size_t)(stop - from))", "", "replies that are none"),
    ("it leaves a reply too many for the next line", "if (client->begin < client->end) {", "if (0) {", "one reply more than was asked for"),
    ("it takes a server that is late for a full one", "client->is_silent && !client->is_late", "client->is_silent", "a greeting that doesn't come"),
    ("it goes on with a connection after a late reply", "break_off(client, status);\n    client->is_late = is_late;", "client->is_late = is_late;",
     "a change that is late"),
    ("it asks again for a late reply", "|| client->is_late) {", ") {", "a late reply isn't waited for again"),
    ("it keeps a connection that was refused", "if (status) {\n        return break_off(client, status);", "if (status) {\n        return status;",
     "no tenant has the name"),
    ("it doesn't try again if the server is full", "(status != MONDLEXI_LOST && status != MONDLEXI_FULL) || !mdx_pause",
     "status != MONDLEXI_LOST || !mdx_pause", "a full server, asked again"),
    ("it sends a change again over a new connection", "question->gone == MONDLEXI_LOST ? client->options.reconnects : 0",
     "client->options.reconnects", "a change whose connection breaks"),
    ("a read that connects anew doesn't wait", "mdx_begin(client, mdx_after(client->options.within), 1)", "mdx_begin(client, mdx_after(0), 1)",
     "get whose new connection waits for room"),
    ("it doesn't ask again while the server is busy", "status != MONDLEXI_BUSY || !mdx_pause(client, &pause, end)", "1",
     "a change that is busy at first"),
    ("its first pause is the longest", "mdx_question *question, int64_t end) {\n    int64_t pause = FIRST_PAUSE;",
     "mdx_question *question, int64_t end) {\n    int64_t pause = LONGEST_PAUSE;", "the pauses of a read that is busy grow, to a quarter of a second"),
    ("its pauses go on from one call to the next", "mdx_question *question, int64_t end) {\n    int64_t pause = FIRST_PAUSE;",
     "mdx_question *question, int64_t end) {\n    static int64_t pause = FIRST_PAUSE;",
     "the pauses of a change that is busy grow, to a quarter of a second"),
    ("it connects anew without a goodbye", "    mondlexi_close(client);\n    return mdx_begin",
     "    mdx_drop(client);\n    return mdx_begin", "an open client that is connected anew"),
    ("it connects anew although it was closed", "client->state = IS_CLOSED;", "client->state = IS_BROKEN;", "a client that is closed"),
    ("it forgets a failure before other replies", "found = found ? found : status;\n    }\n    return found;\n}\n\n/* Sends all",
     "found = status;\n    }\n    return found;\n}\n\n/* Sends all", "get_many with a fault among the replies"),
    ("it waits as long for a goodbye as for a reply", "end < last ? end : last", "end + 9000000", "a goodbye that doesn't come"),
)
PROTOCOL = (
    ("it takes the port 0", "atol(text) < 1 ||", "", "places that are none"),
    ("it takes long names", "size >= 1 && size <= 16 &&", "size >= 1 &&", "names that no tenant has"),
    ("it doesn't sort entries", "qsort(sorted, count, sizeof *sorted, by_address);", "", "entries are sent by their addresses"),
    ("it sends an address past the end", "sorted[k].address >= client->words", "sorted[k].address > client->words",
     "changes that are refused before they are sent"),
    ("it sends a value that is too great", "sorted[k].value > MONDLEXI_MAX_VALUE ||", "", "changes that are refused before they are sent"),
    ("it sends two entries of one word", " ||\n            (k && sorted[k].address == sorted[k - 1].address)", "",
     "changes that are refused before they are sent"),
    ("it takes a number with a zero before it", "|| (size > 1 && **at == '0')", "", "answers that are none"),
    ("it takes a value that is too great", "return *value <= most;", "return 1;", "answers that are none"),
    ("it believes that the value expected is another one", "return question->entries[k].expected != value;", "return 1;",
     "the value that was expected isn't another one"),
    ("it believes a word that it didn't ask for", "    return 0;\n}\n\nstatic mdx_meaning read_change", "    return 1;\n}\n\nstatic mdx_meaning read_change",
     "a word that wasn't asked for"),
    ("it takes a report in any columns", "return !strcmp(line, again);", "return 1;", "a report whose columns are moved"),
    ("it takes a report of no tenant", "if (!part || !mdx_skip", "if (!mdx_skip", "a report of no tenant"),
)
CODEC = (
    ("it takes ERR 0", "SAYS_ERR, 1, MAX_REFUSAL", "SAYS_ERR, 0, MAX_REFUSAL", "replies that are none"),
    ("it takes a tenant of no words", "SAYS_WORDS, 1, MONDLEXI_MAX_WORDS", "SAYS_WORDS, 0, MONDLEXI_MAX_WORDS", "a greeting of no words"),
)
CLIENT = (
    ("stable believes one reading", "!gets.differs", "1", "stable of words that change"),
    ("stable compares with the first reading alone", "gets.compares = 1;", "", "stable of words that change"),
    ("it doesn't tell which word differed", "*miss = change.miss;", "(void)miss;", "a change that isn't made"),
    ("read guesses the same again", "known->values[place_of(known, change.miss.address)] = change.miss.value;", "", "read of words that change"),
    ("read of one word makes a change", "known->count > 1 ? MONDLEXI_NO : MONDLEXI_OK", "MONDLEXI_NO", "read of one word"),
    ("read leaves something unknown", "mdx_change(entries, known->count, MONDLEXI_LOST)", "mdx_change(entries, known->count, MONDLEXI_UNKNOWN)",
     "read whose connection breaks"),
    ("it tells a change whose reply was lost as not made", "mdx_change(sorted, count, MONDLEXI_UNKNOWN)",
     "mdx_change(sorted, count, MONDLEXI_LOST)", "a change whose connection breaks"),
)
COUNTED = (
    ("it shuts the door by 2", "{counted->address, count, count + 1}", "{counted->address, count, count + 2}", "a count begins"),
    ("it doesn't see that something else moves the count", "value > counted->count + 2", "value > counted->count + 9",
     "something else has moved the count meanwhile"),
    ("it tells the change before for a new one", "counted->is_made && value == counted->count + 2", "value == counted->count + 2",
     "a counted change at a server that is worn"),
    ("it tells a change as made that the door was shut on", "counted->is_made && value == counted->count + 2", "counted->is_made",
     "a lost reply of a change that wasn't made"),
    ("it forgets where the count is", "counted->count = value;\n    counted->is_undecided = 0;", "counted->is_undecided = 0;",
     "a lost reply of a change that was made"),
    ("it sends a new change before the last one is settled", "status = status ? status : find_out(counted);", "",
     "the change before is settled first"),
    ("it tells a change at a tenant that went down as not made", "status == MONDLEXI_FAULT || status == MONDLEXI_WORN", "status == MONDLEXI_WORN",
     "a counted change that was made by a tenant that went down"),
    ("it gives up to settle while the server is busy", "(status != MONDLEXI_BUSY && !is_gone(status)) ||", "!is_gone(status) ||",
     "a count is asked for as long as the tenant is busy"),
    ("it tells a new change as unknown that it didn't send", "status == MONDLEXI_UNKNOWN ? MONDLEXI_LOST : status", "status",
     "a new change isn't sent if the reply for the count is lost"),
    ("it doesn't see that something else moves the count back", "value <= counted->count || ", "", "something else has moved the count back"),
    ("it settles without a new connection", "status = is_gone(status) ? connect_anew(counted->client, end) : MONDLEXI_OK;",
     "status = MONDLEXI_OK;", "a lost reply of a change that was made"),
    ("it tells a lost reply as not made", "    if (is_gone(status)) {\n        return mondlexi_counted_settle(counted);\n    }", "",
     "a lost reply of a change that was made"),
)
ALL = [Wrong(what, f"{file}.c", old, new, case)
       for file, rows in (("link", LINK), ("session", SESSION), ("protocol", PROTOCOL), ("codec", CODEC), ("client", CLIENT), ("counted", COUNTED))
       for what, old, new, case in rows]


def try_wrong(wrong: Wrong, cases: Sequence[Case], folder: Path) -> Optional[str]:
    """Builds a wrong client in a folder that isn't there, and plays its case. What is the matter if that doesn't find it; else None."""
    shutil.copytree(SOURCE, folder, ignore=shutil.ignore_patterns("out"))
    text = (folder / wrong.file).read_text()
    if wrong.old not in text:
        return f"{wrong.file} has no text {wrong.old!r}"
    (folder / wrong.file).write_text(text.replace(wrong.old, wrong.new, 1))
    words = ["make", "-s", "OWN=-std=c99 -w -fPIC", "CFLAGS=-O0", "out/play"]
    built = subprocess.run(words, cwd=folder, stdin=subprocess.DEVNULL, stdout=subprocess.PIPE, stderr=subprocess.STDOUT, text=True)
    if built.returncode:
        return f"it can't be built: {built.stdout}"
    own = [case for case in cases if case.name == wrong.case]
    return None if play_all(own, [str(folder / "out/play")], False) else f"the case {wrong.case!r} doesn't find it, or isn't there"
