"""The page of a tenant's words, and what the client in Python reads there, beside clients that change words.

Used by: scripts/check-http. docs/HTTP.md has the form of the page.
"""
import asyncio
import threading
from typing import Callable, List

from lib.checks import MWSHOW, PATIENCE, Wrong, is_built, raises, run, same
from lib.served import Client, Served

from .server import get

import mondlexi.aio

WORDS, MOVERS, COUNT = 64, 6, 40
"""The words of the tenant, clients that change them, and the first of their counts."""
SNAPSHOTS = 60


def right(server: Served) -> None:
    """The words are those that `GET` tells and, if it is built, what mwshow prints of a copy."""
    client = Client(server.port, "a")
    same(client.ask("CAS 3:0:7 63:0:281474976710655"), "YES", "a change")
    told = [int(client.ask(f"GET {address}").split()[1]) for address in range(WORDS)]
    same((told[3], told[63]), (7, 2 ** 48 - 1), "the words of a change")
    client.end()
    text = get(server.pages, "/tenants/a/words").body.decode()
    same([line.split()[0] for line in text.splitlines()], ["second", "words", "places"] + ["word"] * WORDS, "the lines of all words")
    for snapshot in (taken, awaited):
        same(snapshot(server), told, "a snapshot")
    if is_built("mwshow"):
        copy = server.folder / "copy.mw"
        copy.write_bytes(get(server.pages, "/tenants/a/file").body)
        same(run(MWSHOW, "--words", copy), (0, text, ""), "what mwshow prints")
        copy.unlink()


def taken(server: Served) -> List[int]:
    """A snapshot."""
    return mondlexi.snapshot(f"unix:{server.pages}", "a", timeout=PATIENCE)


def awaited(server: Served) -> List[int]:
    """A snapshot by asyncio."""
    return asyncio.run(mondlexi.aio.snapshot(f"unix:{server.pages}", "a", timeout=PATIENCE))


def of_one_moment(server: Served) -> None:
    """While clients move amounts between words, and each counts its changes, all words of a snapshot come to the same, and no count is below
    what was told before."""
    whole = sum(taken(server)[:COUNT])
    told, is_over = [0] * MOVERS, threading.Event()
    movers = [threading.Thread(target=move, args=(server, number, told, is_over)) for number in range(MOVERS)]
    for mover in movers:
        mover.start()
    try:
        for number in range(SNAPSHOTS):
            look(server, awaited if number % 2 else taken, told, whole)
    finally:
        is_over.set()
        for mover in movers:
            mover.join()
    same(min(told) > 0, True, "each client changes words meanwhile")
    look(server, taken, told, whole)
    for kind, tenant in ((mondlexi.Refused, "c"), (ValueError, "a/file")):
        raises(kind, f"a snapshot of {tenant}", mondlexi.snapshot, f"unix:{server.pages}", tenant)


def move(server: Served, number: int, told: List[int], is_over: threading.Event) -> None:
    """Moves 1 from one word to another, again and again, with a count of this client's changes."""
    client, turn = Client(server.port, "a"), number
    while not is_over.is_set():
        turn += 1
        source, target = sorted(((turn * 7) % COUNT, (turn * 11 + number + 1) % COUNT))
        if source == target:
            continue
        one, other = (int(client.ask(f"GET {address}").split()[1]) for address in (source, target))
        step = 1 if one else -1
        if one or other:
            line = f"CAS {source}:{one}:{one - step} {target}:{other}:{other + step} {COUNT + number}:{told[number]}:{told[number] + 1}"
            told[number] += client.ask(line) == "YES"
    client.end()


def look(server: Served, snapshot: Callable[[Served], List[int]], told: List[int], whole: int) -> None:
    """One snapshot, of whose words those that are moved come to this."""
    before = list(told)
    words = snapshot(server)
    same(sum(words[:COUNT]), whole, "all that is moved, in a snapshot")
    counts = words[COUNT:COUNT + MOVERS]
    if any(count < least for count, least in zip(counts, before)):
        raise Wrong(f"a snapshot has the counts {counts}, after {before} were told")
