"""What scripts/check-programs tries beside the clients: mwbench; the units of contrib, how exposed they are, and that they allow the system calls
which a server makes; that a log goes on after logrotate; contrib's check for cron; the version that each program tells, and its help; and
scripts/bench-server with its chart.

Used by: scripts/check-programs. The loads take two seconds each; how much is served in them is not looked at. It reads the lines of mwbench
(docs/BENCH.md has the names of --json) and the rows of bench-server: change these together.
"""
import gzip
import json
import re
import signal
import subprocess
import sys
import time
from itertools import takewhile
from typing import Set
from xml.etree import ElementTree

from .common import BUILT, MWBENCH, MWINIT, MWSERVE, PROGRAMS, TOP, WITH_CLIENT, Peers, at, is_built, ran, same, well
from .served import Served, make_tenants

import mondlexi  # noqa: E402

sys.path.insert(0, str(TOP / "scripts"))
from bench_parts import chart as chart_module  # noqa: E402
from bench_parts.chart import Chart  # noqa: E402
from bench_parts.stores import NAME  # noqa: E402

VERSION = TOP / "crates/mw_main/src/lib.rt"
SERVER_UNITS = [TOP / "contrib" / name for name in ("mondlexi.service", "mondlexi-local.service")]
KEEPER_UNIT = TOP / "contrib/ha/mondlexi-ha@.service"
MOST_EXPOSED = 2
SECOND = re.compile(r"second \d+: \d+ changes, \d+ reads, \d+ refusals")
KIND = re.compile(r"([A-Z]+) (\d+): mean (\d+) us, p50 (\d+) us, p90 (\d+) us, p95 (\d+) us, p99 (\d+) us, p99\.9 (\d+) us, slowest (\d+) us")
KINDS = ["YES", "NO", "BUSY", "VAL"]
FIGURES = ["changes a second", "reads a second", "refusals", "p50", "p90", "p99", "p99.9", "slowest"]
TIMES = ["mean_us", "p50_us", "p90_us", "p95_us", "p99_us", "p99_9_us", "slowest_us"]
DOCUMENTS = "\nDocuments: docs/{}.md beside README.md, or below /usr/share/doc/mondlexi\n"
OPERATING = DOCUMENTS.format("OPERATING")
HELP = {"mwinit": ("how many words it has, 1 to 4096\n", "\nExample: mwinit t.mw 1000 4\n", OPERATING),
        "mwserve": ("--clients <1..4096>", "--mode <0..777>", "\nEach line of the tenants file: name words quota path\n",
                    "\nExample: mwinit t.mw 1000 4 && echo 't 1000 4 t.mw' > tenants && mwserve --tenants tenants --listen 127.0.0.1:7000\n", OPERATING),
        "mwshow": ("tells the words that are 0 too\n", "\nExample: mwshow --words t.mw\n", OPERATING),
        "mwreplay": ("also prints each claim of a slot that is won\n", "\nExample: mwreplay --trace schedule\n", DOCUMENTS.format("SCHEDULES")),
        "mwbench": ("--clients <1..64>", "--reads <0..100>",
                    "\nExample: mwbench --connect 127.0.0.1:7000 --tenant t --clients 16 --words 2 --seconds 10\n", DOCUMENTS.format("BENCH"))}
"""What the help of a program has: ranges or what an option is for, an example, the form of a tenants line, and where the documents are."""
MOST_BUSY = 2100
"""How often a line of a client may be told BUSY in two seconds: it waits for a millisecond at least after each."""
WRONG_SUMS = "mwbench: the words are not the sums of the replies YES\n"


def try_wrong_sums(server, at):
    """While mwbench loads the server another client changes a word: that is no sum of the replies any more."""
    with mondlexi.Client(server.at, "load") as client:
        before = client.get(0)
        process = subprocess.Popen([MWBENCH, *at, "--clients", "2"], stdin=subprocess.DEVNULL, stdout=subprocess.DEVNULL, stderr=subprocess.PIPE)
        while client.get(0) == before and process.poll() is None:
            time.sleep(0.01)
        process.send_signal(signal.SIGSTOP)
        try:
            while not client.cas([(0, value := client.get(0), value + 1)]):
                pass
        finally:
            process.send_signal(signal.SIGCONT)
    same((process.communicate()[1].decode(), process.returncode), (WRONG_SUMS, 1), "mwbench beside a client who changes a word")


def try_kinds(kinds, rates, what):
    """The counts and times of YES, NO, BUSY and VAL agree with each other, and with the changes and reads a second and the refusals
    of two seconds. How long anything took is not looked at."""
    yes, no, busy, read = (kind[0] for kind in kinds)
    same((yes // 2, read // 2, no + busy), tuple(rates), f"the counts of {what}")
    for count, mean, *within in kinds:
        same((within == sorted(within), mean <= within[-1], count > 0 or within[-1] == 0), (True, True, True), f"times of {what}: {count, mean, within}")


def try_text(at, more):
    """The lines of mwbench. A client waits after BUSY."""
    status, told, errors = ran(MWBENCH, *at, *more)
    lines = told.splitlines()
    same((status, len(lines), errors), (0, 2 + len(KINDS) + len(FIGURES), ""), f"mwbench {more}")
    same([SECOND.fullmatch(line) is not None for line in lines[:2]], 2 * [True], "the seconds of mwbench")
    kinds = [KIND.fullmatch(line) for line in lines[2:6]]
    same([kind and kind.group(1) for kind in kinds], KINDS, f"the kinds of reply of mwbench {more}")
    same([re.fullmatch(f"{re.escape(text)} \\d+( us)?", line) is not None for line, text in zip(lines[6:], FIGURES)], 8 * [True], "the figures of mwbench")
    numbers = [[int(it) for it in kind.groups()[1:]] for kind in kinds if kind]
    try_kinds(numbers, [int(line.split()[-1]) for line in lines[6:9]], f"mwbench {more}")
    at_once = int(more[1]) * (int(more[3]) if more[2:3] == ("--pipeline",) else 1)
    same(numbers[2][0] <= MOST_BUSY * at_once, True, f"that mwbench {more} waits after BUSY, which came {numbers[2][0]} times")


def try_json(at, more):
    """With --json mwbench writes the same as one JSON object in one line."""
    status, text, errors = ran(MWBENCH, *at, *more, "--json")
    same((status, text.count("\n"), errors), (0, 1, ""), f"mwbench {more} --json")
    told = json.loads(text)
    named = re.search(r"`--json` prints .*", (TOP / "docs/BENCH.md").read_text())
    names = set(told) | {name for it in told.values() if isinstance(it, dict) for name in it}
    same(sorted(names - set(re.findall(r"`(\w+)`", named[0] if named else ""))), [], "the names of --json that docs/BENCH.md doesn't have")
    rates, kinds = ["changes_a_second", "reads_a_second", "refusals"], ["yes", "no", "busy", "val", "all"]
    same(list(told), [*rates, *kinds], "the names in mwbench's JSON")
    same([list(told[kind]) for kind in kinds], 5 * [["count", *TIMES]], "the names of a kind in mwbench's JSON")
    numbers = [list(told[kind].values()) for kind in kinds]
    same({type(it) for row in numbers for it in row}, {int}, "the numbers in mwbench's JSON")
    try_kinds(numbers[:4], [told[name] for name in rates], f"mwbench {more} --json")
    same(numbers[4][0], sum(row[0] for row in numbers[:4]), "all replies in mwbench's JSON")


def check_load(server):
    """A load is measured, whether its clients share words or not, and the words are the sums of the replies YES. Where more
    clients change at once than the quota allows they are told BUSY too."""
    at = ("--connect", server.at, "--tenant", "load", "--words", "2", "--seconds", "2")
    for more in (("--clients", "4"), ("--clients", "8", "--shared", "--reads", "50"), ("--clients", "2", "--pipeline", "8")):
        try_text(at, more)
        try_json(at, more)
    for wrong_words, wanted in ((("--clients", "64"), 1), (("--clients", "0"), 2), (("--clients", "1", "--reads", "101"), 2)):
        same(ran(MWBENCH, *at, *wrong_words)[0], wanted, f"status of mwbench {wrong_words}")
    try_wrong_sums(server, at)
    print("mwbench: words are the sums of the replies, or it says that they aren't, and each status is as it should be")


def try_quota(folder):
    """Eight clients change one word. A quota a quarter above them keeps BUSY away but for 1 of 100 at most, as on a busy machine; one of half as many
    doesn't: docs/OPERATING says so."""
    room = folder / "quota"
    room.mkdir()
    make_tenants(MWINIT, room, {"t": 1}, 10)
    for quota, is_often in ((10, False), (4, True)):
        (room / "tenants").write_text(f"t 1 {quota} t.mw\n")
        with Served(MWSERVE, room, ("--workers", "8"), True) as server:
            told = well(MWBENCH, "--connect", server.at, "--tenant", "t", "--words", "1", "--clients", "8", "--shared", "--pipeline", "16",
                        "--seconds", "2", "--json")
        counts = {kind: it["count"] for kind, it in json.loads(told).items() if isinstance(it, dict)}
        same(counts["busy"] * 100 > counts["all"], is_often, f"whether BUSY came often at a quota of {quota}: {told}")
    print("quota: a quarter above the clients that change at once keeps BUSY away")


def check_units(folder):
    """systemd-analyze wants the programs to be where the units say, so it is given copies with the paths of those that are here. The
    server's units are as little exposed as they say."""
    units = sorted(path for path in (*(TOP / "contrib").iterdir(), KEEPER_UNIT) if path.suffix in (".service", ".socket", ".timer"))
    for path in units:
        (folder / path.name).write_text(path.read_text().replace("/usr/local/bin/mwserve ", f"{MWSERVE} ").replace("/usr/local/bin/", f"{path.parent}/"))
    for path in units:
        status, told, errors = ran("systemd-analyze", "verify", folder / path.name)
        same((status, [line for line in (told + errors).splitlines() if "mondlexi" in line]), (0, []), f"systemd-analyze verify contrib/{path.name}")
    for path in (*SERVER_UNITS, KEEPER_UNIT):
        # (it tells nothing where it can't look at a file)
        told = ran("systemd-analyze", "security", "--offline=true", "--no-pager", path)[1]
        exposed = next(map(float, re.findall(r"exposure level for \S+: ([0-9.]+)", told)), None)
        same(exposed is None or exposed <= MOST_EXPOSED, True, f"the exposure of {path.name}, {exposed}")
        if path in SERVER_UNITS:
            same(path.read_text().count("/usr/local/bin/mwserve "), 1, f"the program of {path.name}")
            same(exposed is None or f"{exposed} of 10" in path.read_text(), True, f"the exposure that contrib/{path.name} tells, {exposed}")
            print(f"contrib/{path.name}: systemd-analyze finds nothing; its exposure is {exposed}")


def calls_of(group):
    """The system calls of a group of systemd's, with those of the groups in it."""
    told = well("systemd-analyze", "syscall-filter", "--no-pager", group)
    names = [line.strip() for line in told.splitlines()[1:] if line.strip() and not line.strip().startswith("#")]
    return {it for name in names for it in (calls_of(name) if name.startswith("@") else [name])}


def allowed_by(unit):
    """The system calls that the lines SystemCallFilter= of a unit leave."""
    allowed: Set[str] = set()
    for line in re.findall(r"^SystemCallFilter=(.*)$", unit, re.MULTILINE):
        named = {it for group in line.lstrip("~").split() for it in calls_of(group)}
        allowed = allowed - named if line.startswith("~") else allowed | named
    return allowed


def try_system_calls(folder):
    """What a server calls of the system, from its start to its last session, is what the units allow."""
    room = folder / "calls"
    room.mkdir()
    make_tenants(MWINIT, room, {"t": 2}, 1)
    found: Set[str] = set()
    for at, more in (("127.0.0.1:0", []), ("unix:socket", ["--mode", "660"])):
        words = ["strace", "-f", "-qq", "-o", "log", str(MWSERVE), "--tenants", "tenants", "--listen", at, "--clients", "4", "--connections", "1", "--verbose"]
        server = subprocess.Popen([*words, *more], cwd=room, stdout=subprocess.PIPE)
        assert server.stdout
        ready = server.stdout.readline().split()[1].decode()
        with mondlexi.Client(f"unix:{room}/socket" if at == "unix:socket" else f"127.0.0.1:{ready}", "t") as client:
            client.cas([(0, client.get(0), 7)])
        same(server.wait(), 0, f"the status of a server at {at}")
        server.stdout.close()
        found |= set(re.findall(r"^[0-9]+ +([a-z0-9_]+)\(", (room / "log").read_text(), re.MULTILINE))
    for path in (*SERVER_UNITS, KEEPER_UNIT):
        same((found - allowed_by(path.read_text()) - {"execve"}, "fdatasync" in found), (set(), True), f"system calls that {path.name} doesn't allow")
    print(f"the units allow each of the {len(found)} system calls that a server makes")


def try_rotation(folder):
    """logrotate empties the file that a server writes to, and what is written later is in it."""
    log, room = folder / "mwserve.log", folder / "rotation"
    room.mkdir()
    (room / "rules").write_text((TOP / "contrib/mondlexi.logrotate").read_text().replace("/var/log/mwserve.log", str(log)))
    with open(log, "a") as out:
        print("early", file=out, flush=True)
        well("logrotate", "--force", "--state", room / "state", room / "rules")
        print("late", file=out, flush=True)
    same((log.read_text(), gzip.decompress((folder / "mwserve.log.1.gz").read_bytes())), ("late\n", b"early\n"), "the log and what was rotated")
    print("contrib/mondlexi.logrotate: the log goes on behind a rotation")


def watched(place):
    """The status of contrib/mondlexi-check, and what it says, without the line feed at its end."""
    status, told, errors = ran(TOP / "contrib/mondlexi-check", place, env=WITH_CLIENT)
    return status, (told + errors).rstrip("\n")


def try_the_watch(server):
    same(watched(server.at), (1, "down: away"), "the watch, of a tenant that is down")
    same(watched(Peers(["OK ADMIN\n", f"{'t':16} {2:4} {1:2} {2:2} {0:2} up\nfree 1\n", "BYE\n"]).at), (0, ""), "the watch, where all are up")
    for place, said in ((f"{server.at}-absent" if server.local else at(1), "no report: connecting to "), ("nowhere", "no report: a server listens at ")):
        status, told = watched(place)
        same((status, told.startswith(said), "\n" in told), (1, True, False), f"the watch at {place}, which says {told}")


def try_versions():
    """Each program that is built tells the one version that all have, and nothing else. The client in Python has it too."""
    version = VERSION.read_text().split('"')[1]
    same(mondlexi.__version__, version, "the version of the client in Python")
    for program in filter(is_built, PROGRAMS):
        same(ran(BUILT[program], "--version"), (0, f"{program} {version}\n", ""), f"{program} --version")
    print("versions: each program tells the same, and so does the client")


def try_help():
    """The help of a program has what a new user needs."""
    for program in filter(is_built, HELP):
        status, told, errors = ran(BUILT[program], "--help")
        same((status, errors, [it for it in HELP[program] if it not in told]), (0, "", []), f"{program} --help")
    print("help: ranges, an example, the form of a tenants line, and where the documents are")


def drawn(path):
    """The texts of a chart, and how wide each of its bars is. It must be SVG."""
    root = ElementTree.parse(path).getroot()
    return ([it.text or "" for it in root.iter() if it.tag.endswith("text")],
            [float(it.get("width", "")) for it in root.iter() if it.tag.endswith("rect") and it.get("height") == str(chart_module.BAR)])


def try_chart(folder):
    """The charts of bench-server, also that of one tenant, have a bar for each figure, and its names in them."""
    chart, of_one = Chart(), Chart()
    chart.add_store("a <store>", [(10, 90.5, 400), (2000, 300, 7000)])
    chart.add_gets("alone", [25.5, 0])
    of_one.add_one_tenant("a disk", ["1", "4", "16", "64", "one word"], {"a <store>": [(2000 + k, 50, 100 + k, 4.5 - k) for k in range(5)]})
    for it, count, wanted in ((chart, 8, ("a <store>", "alone", "2,000", "10", "90", "400", "300", "7,000", "26", "0.00")),
                              (of_one, 15, ("2,000", "2,004", "4.50", "0.50", "100", "104", "one word"))):
        it.write(folder / "chart.svg")
        said, bars = drawn(folder / "chart.svg")
        same((len(bars), [text for text in wanted if text not in said]), (count, []), "a chart")
        same(it is of_one or (bars[0], bars[7]) == (round(bars[1] / 200, 1), 0.0), True, f"the bars of a chart: {bars}")
    print("the chart of bench-server has a bar for each figure")


def try_bench(folder):
    """A short run of bench-server draws this server beside other stores. What it measured is not looked at."""
    room, chart = folder / "bench", folder / "measured.svg"
    room.mkdir()
    well(TOP / "scripts/bench-server", "--seconds", "0.2", "--turns", "1", "--folder", room, "--chart", chart)
    said = " ".join(drawn(chart)[0])
    parts = ("Changes a second", "A change, microseconds", "A GET, microseconds", "Mondlexi (mwserve)", "SQLite")
    same(([it for it in parts if it not in said], list(room.iterdir())), ([], []), "the chart of a short run of bench-server, and what it leaves")
    print("bench-server: a short run is drawn beside other stores")


def try_bench_of_one_tenant(folder):
    """A short run of it tells that a lone client needs four syncs a change, and sixteen clients less than one and a half; and that these
    make more changes. If a thread that makes their calls didn't wake them, they would make far fewer. If a worker that was woken didn't
    wake the next, they would need 1.7 syncs. Nothing else is looked at."""
    room = folder / "bench-one-tenant"
    room.mkdir()
    told = well(TOP / "scripts/bench-server", "--one-tenant", "--delay", "200", "--seconds", "0.3", "--turns", "1", "--folder", room)
    ours = list(takewhile(lambda row: row.startswith("  clients: "), told.split("Mondlexi, ")[1].splitlines()[1:]))
    rates, syncs = ({row[:NAME].split(": ")[1].strip(): float(row.split()[at].replace(",", "")) for row in ours} for at in (-7, -4))
    same((syncs["1"], syncs["16"] < 1.5, list(room.iterdir())), (4.0, True, []), "the syncs of a change, and what a short run leaves")
    same(rates["16"] > 1.5 * rates["1"], True, f"more changes by sixteen clients than by one: {rates}")
    print("bench-server --one-tenant: a lone client needs four syncs a change, and sixteen fewer and make more")
