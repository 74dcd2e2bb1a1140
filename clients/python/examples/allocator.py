"""Takes numbered blocks, of the 1,000 in the words 0 to 999 of a tenant, and gives them back.

usage: python3 allocator.py ADDR TENANT OWNER take COUNT [TAG]
       python3 allocator.py ADDR TENANT OWNER give BLOCK..
       python3 allocator.py ADDR TENANT OWNER mine

OWNER: a number from 0 on, whose count is the word 1000 + OWNER. One process at a time is an owner. `mine` lists its blocks, each
with its tag: also those that were taken by a process that died before it could tell. Status 0, or 1 if not so many are free.

Used by: whoever wants to copy it; scripts/program_parts/recipes.py, which tries it.
"""
import sys
from pathlib import Path

sys.path.insert(0, str(Path(__file__).resolve().parent.parent))
import mondlexi  # noqa: E402
from mondlexi.recipes import Blocks  # noqa: E402

BLOCKS = 1000


def main(server: str, tenant: str, owner: str, command: str, *words: str) -> int:
    """Does what the command line asks for. The status."""
    numbers = list(map(int, words))
    with mondlexi.Client(server, tenant, within=30) as client:
        blocks = Blocks(client, int(owner), BLOCKS)
        if command == "take":
            taken = blocks.allocate(*numbers)
            print(*sorted(taken or []))
            return 0 if taken else 1
        if command == "give":
            blocks.free(numbers)
        for block, tag in blocks.mine().items():
            print(block, tag)
    return 0


if __name__ == "__main__":
    sys.exit(main(*sys.argv[1:]))
