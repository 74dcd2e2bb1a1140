"""The examples of the pages, taken from them and run as they are. Those in Python of README and of the pages of clients, each at a new tenant:
what each prints, and what it leaves in the words; a page's first one is on its first screen. Those of docs/SCHEDULES.md: mwreplay prints of
each just what the page says, and a request makes just the kinds of step that the page lists.

Used by: scripts/check-programs, for --gate too: it takes some seconds.
"""
import re
import sys
from pathlib import Path
from typing import Tuple

from .common import BUILT, PATIENCE, TOP, WITH_CLIENT, Server, ran, same, well

import mondlexi  # noqa: E402

PAGES = {"README.md": {"first": 1000}, "docs/CLIENTS.md": {"second": 4096, "calls": 2}, "docs/RECIPES.md": {"third": 4096, "places": 180}}
"""A tenant for each block of Python of a page, and its words."""
FIRST_SCREEN = 2500
"""Before so many characters of a page its first block of Python begins."""
TENANTS = {tenant: words for tenants in PAGES.values() for tenant, words in tenants.items()}
PYTHON = re.compile(r"^```python\n(.*?)^```$", re.MULTILINE | re.DOTALL)
PRINTED = re.compile(r"print\(.*\) +# (\[.*?\]),")
"""What a block prints, if it says so; else it prints an index in which nothing was put, if anything."""
PLACE = '"127.0.0.1:7000", "t"'
"""Where the blocks look for a server, and their tenant."""
BEFORE = f"import mondlexi\nfrom mondlexi.recipes import *\nclient = mondlexi.Client({PLACE})\n"
"""What comes before a block that has no client of its own."""
PLACE_WORDS = 3
SCHEDULES = TOP / "docs/SCHEDULES.md"
DATA = TOP / "crates/mwreplay/data/own-quota-busy.sched"
FENCED = re.compile(r"^```\n(.*?)^```$", re.MULTILINE | re.DOTALL)
CALLS = ("prepare", "seal", "settle", "cancel")
"""The kinds of step that are calls on the file."""
HEAD = "pool 1\nworkers 1\ntenant t 1 1\ncome 0 t "


def try_python(server: Server) -> None:
    """Each block in Python; then what those left that print nothing."""
    blocks = []
    for page, tenants in PAGES.items():
        here = list(PYTHON.finditer((TOP / page).read_text(encoding="utf-8")))
        same(len(here), len(tenants), f"the blocks of Python of {page}")
        same(here[0].start() < FIRST_SCREEN, True, f"that the first screen of {page} has a program")
        blocks += [it[1] for it in here]
    for block, tenant in zip(blocks, TENANTS):
        text = (block if PLACE in block else BEFORE + block).replace(PLACE, f'"{server.at}", "{tenant}"')
        said = PRINTED.search(block)
        printed = f"{said[1] if said else '[]'}\n" if "print(" in block else ""
        same(well(sys.executable, "-B", "-c", text, timeout=PATIENCE, env=WITH_CLIENT), printed, f"what the example prints\n{block}")
    with mondlexi.Client(server.at, "calls") as client:
        same(client.get_many([0, 1]), [1, 7], "the words after the example of single calls")
    with mondlexi.Client(server.at, "places") as client:
        holders = client.get_many(range(1, TENANTS["places"], PLACE_WORDS))
        same(sum(map(bool, holders)), 1, "the places that the example took")
    print(f"{len(TENANTS)} examples of the pages: each prints what the page says")


def played(folder: Path, schedule: str) -> Tuple[int, str, str]:
    """What mwreplay makes of a schedule: its status, what it prints and what it says is wrong."""
    (folder / "schedule").write_text(schedule, encoding="utf-8")
    return ran(BUILT["mwreplay"], "schedule", at=folder)


def try_schedules(folder: Path) -> None:
    """Each schedule of the page prints the block behind it. The other blocks list kinds: a request that is alone makes these steps and no
    other, as many as there are kinds, with no step before any of them."""
    folder.mkdir()
    page = SCHEDULES.read_text(encoding="utf-8")
    found = FENCED.findall(page)
    at = [place for place, text in enumerate(found) if text.startswith("pool ")]
    same(len(at) >= 2 and at[0] == 0, True, f"that {SCHEDULES.name} has its schedules")
    same(found[0], DATA.read_text(encoding="utf-8"), f"the first schedule of {SCHEDULES.name}, as it is in {DATA.name}")
    for place in at:
        same(played(folder, found[place]), (0, found[place + 1], ""), f"schedule {at.index(place) + 1} of {SCHEDULES.name}")
    rest = [text.splitlines() for place, text in enumerate(found) if place not in at and place - 1 not in at]
    read = re.findall(r"a read is `([a-z ]+)`", page)
    same(([len(lines) for lines in rest], len(read)), ([4], 1), f"the lines of the other blocks of {SCHEDULES.name}, and its kinds of a read")
    for job, kinds in (("GET 0", read[0].split()), ("CAS 0:0:1", " ".join(rest[0][:2]).split()), ("CAS 0:1:2", " ".join(rest[0][2:]).split())):
        steps = ["file 0 good\n" if kind in CALLS else "step 0\n" for kind in kinds]
        for body in ("".join(steps), "".join(f"before 0 {kind}\n{step}" for kind, step in zip(kinds, steps))):
            schedule = f"{HEAD}{job}\n{body}step 0\n"
            said = f"line {schedule.count(chr(10))} not enabled\nmwreplay: worker 0 has a reply, which `end 0` hands out\n"
            same(played(folder, schedule), (3, "", said), f"the kinds of step of {job}: {' '.join(kinds)}")
    print(f"docs/{SCHEDULES.name}: {len(at)} schedules print what the page says, and 3 requests make the steps that it lists")
