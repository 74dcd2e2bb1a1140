"""Runs a command while it holds locks, of the 40 in the words 0 to 79 of a tenant.

usage: python3 lock_table.py ADDR TENANT OWNER LOCK[,LOCK..] COMMAND [WORD..]

OWNER: a number from 1 to 65,535 that no other process has now. The command has the locks' tokens in MONDLEXI_TOKENS, with commas
between. The lease is renewed as long as the command runs; if it is lost, the command is stopped before another process can have
a lock. The status is the command's; 1 if the locks were not free for a minute, or were lost.

Used by: whoever wants to copy it; scripts/program_parts/recipes.py, which tries it.
"""
import os
import subprocess
import sys
from pathlib import Path
from typing import List

sys.path.insert(0, str(Path(__file__).resolve().parent.parent))
import mondlexi  # noqa: E402
from mondlexi.recipes import Grant, Locks  # noqa: E402

LOCKS = 40
LEASE = 10.0
WAIT = 60.0
SHORT = LEASE / 10
"""For how many seconds each part of a call is waited for: so a renewal that fails has failed well before the lease is over."""


def run_held(locks: Locks, grant: Grant, command: List[str]) -> int:
    """Runs the command as long as the locks are held, and gives them back. Its status, or 1 if they were lost."""
    tokens = ",".join(map(str, grant.tokens))
    process = subprocess.Popen(command, env={**os.environ, "MONDLEXI_TOKENS": tokens})
    try:
        while True:
            try:
                return process.wait(max(0.0, grant.left() - LEASE / 2))
            except subprocess.TimeoutExpired:
                longer = locks.renew(grant, LEASE)
            if longer is None:
                return 1
            grant = longer
    finally:
        process.kill()
        process.wait()
        locks.release(grant)


def main(server: str, tenant: str, owner: str, wanted: str, *command: str) -> int:
    """Takes the locks and runs the command. The status."""
    with mondlexi.Client(server, tenant, timeout=SHORT, patience=SHORT) as client:
        locks = Locks(client, int(owner), LOCKS, wait=SHORT)
        grant = locks.acquire(map(int, wanted.split(",")), LEASE, WAIT)
        return run_held(locks, grant, list(command)) if grant else 1


if __name__ == "__main__":
    sys.exit(main(*sys.argv[1:]))
