"""Puts pairs of a key and a value into a sorted index of a tenant of 4,096 words, and prints those of a range.

usage: python3 sorted_index.py ADDR TENANT LOW HIGH < PAIRS

PAIRS: a line for each, the key and the value with a space between; may be empty. It prints the pairs from LOW to below HIGH. Up to
60 processes do this at a time: each gets the address of its count from a registry in the words 0 to 179.

Used by: whoever wants to copy it; scripts/program_parts/recipes.py, which tries it.
"""
import sys
from pathlib import Path

sys.path.insert(0, str(Path(__file__).resolve().parent.parent))
import mondlexi  # noqa: E402
from mondlexi.recipes import Registry, SortedIndex  # noqa: E402

PLACES, AT = 60, 180
LEASE, WAIT = 60.0, 120.0


def main(server: str, tenant: str, low: str, high: str) -> int:
    """Does what the command line asks for. The status."""
    with mondlexi.Client(server, tenant, within=30) as client:
        registry = Registry(client, PLACES)
        place = registry.join(LEASE, WAIT)
        if place is None:
            return 1
        index = SortedIndex(client, mondlexi.Counted(client, place.address), SortedIndex.pairs_in(client.words - AT), AT)
        for line in sys.stdin:
            key, value = map(int, line.split())
            index.put(key, value)
            if place.left() < LEASE / 2:
                place = registry.renew(place, LEASE)
                if place is None:
                    return 1
        for key, value in index.range(int(low), int(high)):
            print(key, value)
        registry.leave(place)
    return 0


if __name__ == "__main__":
    sys.exit(main(*sys.argv[1:]))
