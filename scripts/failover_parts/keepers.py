"""The server on each host, started again whenever it ends, as a service manager does: by contrib/ha/mondlexi-ha, or mwserve alone.

Used by: scripts/check-failover, cuts.py, moves.py, proxy.py, speed.py, trials.py. An option of mondlexi-ha that the pages name is tried here.
"""
import re
import signal
import subprocess
import threading
import time
from pathlib import Path
from typing import Dict, List, NamedTuple, Optional, Sequence

from program_parts.common import MWINIT, MWSERVE

from . import gluster
from .hosts import PATIENCE, Host, Network, until
from .load import QUOTA, TENANT, WORDS, Place

PORT = 7000
SERVER = "a"
KEEPER = gluster.TOP / "contrib/ha/mondlexi-ha"
TIMES = "/run/times"
FILE = f"{TENANT}.mw"
def kept(server: str, port: int) -> str:
    """A script that keeps a server on a host, whose address is given to it."""
    return f"""
while :; do
  {gluster.SCRIPT} times {gluster.VOLUME} --write {TIMES}
  [ -e {TIMES} ] && {KEEPER} {gluster.MOUNTED}/{server} --times {TIMES} -- {MWSERVE} --strict --verbose --workers 32 --open --listen "$1:{port}"
  sleep 1
done
"""


BARE = f"""
cd {gluster.MOUNTED}/{SERVER}/first
while :; do
  {MWSERVE} --tenants tenants --strict --workers 32 --open --listen "$1:{PORT}"
  sleep 0.3
done
"""
SERVES = re.compile(r"^(mondlexi-ha: serves .*|ready \d+)$")


class Note(NamedTuple):
    """A line of a host's server, or of what keeps it, and when it was read."""
    at: int
    host: int
    line: str


class Keeper:
    """What keeps a server on one host, while the host is on."""

    def __init__(self, host: Host, notes: List[Note], script: str):
        self.host, self.notes = host, notes
        # (In a file: its processes are found by their command lines.)
        host.path("/run/keeper").write_text(script)
        words = host.words("bash", "/run/keeper", host.address)
        self.process = subprocess.Popen(words, stdin=subprocess.DEVNULL, stdout=subprocess.PIPE, stderr=subprocess.STDOUT)
        threading.Thread(target=self.hear, daemon=True).start()

    def hear(self) -> None:
        assert self.process.stdout
        for line in self.process.stdout:
            self.notes.append(Note(time.monotonic_ns(), self.host.number, line.decode(errors="replace").rstrip("\n")))

    def end(self) -> None:
        """Ends it, and its server."""
        if self.host.begun:
            for part in ("/run/keeper", "mondlexi-ha", "mwserve"):
                self.host.signal(signal.SIGKILL, part)
        # (nsenter stops itself with the process that it began, maybe only after it was told to go on.)
        while self.process.poll() is None:
            self.process.send_signal(signal.SIGCONT)
            time.sleep(0.05)


class Keepers:
    """One on each host."""

    def __init__(self, network: Network, script: str = ""):
        self.network, self.script = network, script or kept(SERVER, PORT)
        self.notes: List[Note] = []
        self.kept: Dict[int, Keeper] = {}
        for host in network.hosts:
            self.begin(host)

    def begin(self, host: Host) -> None:
        self.kept[host.number] = Keeper(host, self.notes, self.script)

    def places(self) -> List[Place]:
        return [(host.address, PORT) for host in self.network.hosts]

    def starts(self) -> List[Note]:
        """Each start of a server."""
        return [it for it in list(self.notes) if SERVES.match(it.line)]

    def last_notes(self) -> List[str]:
        return [f"{it.host} {it.line}" for it in self.notes[-12:]]

    def serving(self, but: int = 0, seconds: float = PATIENCE) -> Host:
        """The host that was the last to start a server, once it is ready; another one than this."""
        def ready() -> Optional[Host]:
            told = [it for it in list(self.notes) if it.line.startswith(("ready ", "mondlexi-ha: ended by"))]
            is_ready = told and told[-1].line.startswith("ready ") and told[-1].host != but
            return self.network.hosts[told[-1].host - 1] if is_ready else None

        return until(ready, lambda: f"a host serves: {self.last_notes()}", seconds, 0.05)

    def end(self) -> None:
        for keeper in self.kept.values():
            keeper.end()


def new_tenant(host: Host, server: str = SERVER, names: Sequence[str] = (TENANT,)) -> None:
    """The folder of a server with one tenant, or more, whose words are 0."""
    folder = f"{gluster.MOUNTED}/{server}"
    host.run("sh", "-c", f"rm -rf {folder}; mkdir -p {folder}/first")
    for it in names:
        host.run("sh", "-c", f"cd {folder}/first && {MWINIT} {it}.mw {WORDS} {QUOTA} && echo '{it} {WORDS} {QUOTA} {it}.mw' >> tenants")
    host.run("sh", "-c", f"cd {folder}/first && sync tenants . .. ../..")


def counted(host: Host, server: str = SERVER) -> Path:
    """The folder of a server that counts, below the volume."""
    return Path(host.run(KEEPER, "--show", f"{gluster.MOUNTED}/{server}").strip()).relative_to(gluster.MOUNTED)

