"""Changes a second of one server, on the volume and on the same host's own disk.

Used by: scripts/check-failover, scripts/check-volume.
"""
import contextlib
import signal
import subprocess
import time
from concurrent.futures import ThreadPoolExecutor
from typing import Iterator

from program_parts.common import MWSERVE

from . import gluster
from .hosts import Host, Wrong
from .keepers import PORT, SERVER, new_tenant
from .load import WORDS, Place, Session

SECONDS = 3.0


@contextlib.contextmanager
def server_in(host: Host, folder: str) -> Iterator[Place]:
    """mwserve over the tenants of a folder, while it is needed."""
    words = host.words("sh", "-c", f"cd {folder} && exec {MWSERVE} --tenants tenants --strict --workers 32 --open --listen {host.address}:{PORT}")
    process = subprocess.Popen(words, stdin=subprocess.DEVNULL, stdout=subprocess.PIPE)
    assert process.stdout
    try:
        if process.stdout.readline() != f"ready {PORT}\n".encode():
            raise Wrong(f"no server in {folder}")
        yield host.address, PORT
    finally:
        host.signal(signal.SIGKILL, str(MWSERVE))
        process.wait()
        process.stdout.close()


def changes(place: Place, clients: int) -> float:
    """How many changes a second so many clients make, each of a word of its own."""
    end = time.monotonic() + SECONDS

    def count(number: int) -> int:
        with contextlib.closing(Session(0, place)) as session:
            first = value = int(session.say(f"GET {number}").split(" ")[1])
            while time.monotonic() < end:
                if session.say(f"CAS {number}:{value}:{value + 1}") != "YES":
                    raise Wrong("a change that nobody hinders was not made")
                value += 1
            return value - first

    with ThreadPoolExecutor(clients) as pool:
        return sum(pool.map(count, range(clients))) / SECONDS


def line(host: Host, local: str) -> str:
    """What was timed, on the volume and in a folder of the host's own disk. The volume has a new tenant after it, with words."""
    new_tenant(host)
    volume = f"{gluster.MOUNTED}/{SERVER}/first"
    host.run("sh", "-c", f"rm -rf {local} && cp -r {volume} {local}")
    found = []
    for what, folder in (("its own disk", local), ("the volume", volume)):
        with server_in(host, folder) as place:
            found.append(f"on {what} {changes(place, 1):.0f} with one client, {changes(place, WORDS):.0f} with {WORDS}")
    return f"changes a second: {'; '.join(found)}"
