"""A tenant is moved by contrib/ha/mondlexi-move between two servers on the volume, which any of the hosts may have, while clients change and read
its words by a proxy.

Used by: scripts/check-failover.
"""
import contextlib
import random
import time
from pathlib import Path
from typing import List, NamedTuple

from . import gluster
from .hosts import Network, until
from .keepers import PORT, Keepers, counted, kept, new_tenant
from .load import TENANT, Load, words_at
from .proxy import Proxy

MOVE = gluster.TOP / "contrib/ha/mondlexi-move"
FROM, TO = ("from", PORT), ("to", PORT + 1)
"""The two servers, with their ports."""
STAYS, THERE = "stays", "there"
"""The other tenant of each."""
WRITERS, PAUSE, WAITS = 3, 0.01, 2.0
PATIENCE = 90.0
RULE = r"""tcp-request inspect-delay 5s
    tcp-request content accept if {{ req.payload(0,0) -m sub \n }}
    use_backend %[req.payload(0,0),field(1,\n),field(2,\ ),map_str({map})]"""


class Moved(NamedTuple):
    """What a move showed, and what was wrong."""
    text: str
    complaints: List[str]


def moved(network: Network, folder: Path, dice: random.Random) -> Moved:
    """Moves a tenant. Before it and after it each server has one more."""
    room, host = folder / "moves", network.hosts[0]
    room.mkdir()
    new_tenant(host, FROM[0], (TENANT, STAYS))
    new_tenant(host, TO[0], (THERE,))
    tenants = room / "tenants.map"
    tenants.write_text(f"{TENANT} server_{FROM[0]}\n{STAYS} server_{FROM[0]}\n{THERE} server_{TO[0]}\n")
    with contextlib.ExitStack() as ends:
        keepers = Keepers(network, f"({kept(*FROM)}) &\n{kept(*TO)}")
        ends.callback(keepers.end)
        proxy = Proxy(network, room, RULE.format(map=tenants), (FROM, TO))
        ends.callback(proxy.end)
        load = Load([proxy.place], [], WRITERS, PAUSE, dice)
        load.begin(words_at([proxy.place], PATIENCE))
        try:
            time.sleep(WAITS)
            begun = time.monotonic_ns()
            told = host.run(MOVE, TENANT, *(f"{gluster.MOUNTED}/{name}" for name, _ in (FROM, TO)), f"server_{TO[0]}", "--proxy", proxy.socket,
                            "--map", tenants, "--patience", PATIENCE, seconds=3 * PATIENCE)
            number = len(load.requests)
            until(lambda: load.places_of_yes(number), lambda: f"a change of a tenant that was moved is answered YES: {keepers.last_notes()}", PATIENCE)
            time.sleep(WAITS)
        finally:
            load.end()
        ended = time.monotonic_ns()
        complaints = load.complaints(words_at([proxy.place], PATIENCE), False)
    lines = host.run("cat", *(f"{gluster.MOUNTED}/{counted(host, name)}/tenants" for name, _ in (FROM, TO))).splitlines()
    if [line.split()[0] for line in lines] != [STAYS, THERE, TENANT]:
        complaints.append(f"after a move the servers have {lines}")
    return Moved(f"between two servers on the volume: {told.strip()}; {load.gap(begun, ended):.1f} s without a YES", complaints)
