"""Three hosts on one machine: each has a network, processes, mounts and a name of its own, and folders that stay when it dies, as a
disk does. They are on one bridge, with this machine beside them, where the clients are.

A host can be unplugged, cut off from one other, stopped, and killed with all of its processes. All share one kernel: what a killed host
has written and not synced is not lost, and this kernel's clock is everybody's.

Used by: scripts/check-failover, scripts/check-volume, many of this folder. Root only.
"""
import contextlib
import os
import shutil
import signal
import subprocess
import sys
import tempfile
import time
from pathlib import Path
from typing import Any, Callable, Dict, List, Sequence, Union

from program_parts.common import MWINIT, MWSERVE, remove, wrong

PATIENCE = 60.0
MOUNTED = "/srv/mw"
"""Where a host has the volume."""
NEEDS = ("ip", "nsenter", "unshare", "bash")
NUMBERS = (1, 2, 3)
HERE = 9
"""The last number of this machine's address on the bridge."""
NOWHERE = "02:00:00:00:00:99"
"""An address of a network card that nobody has: what is sent there is lost without a word."""
BEGIN = r"""
set -e
hostname "$1"
mount --make-rprivate /
mount -t proc proc /proc
shift
disk=$1
shift
for folder; do
  mkdir -p "$folder" "$disk$folder"
  mount --bind "$disk$folder" "$folder"
done
mount --bind "$disk/hosts" /etc/hosts
exec sleep infinity
"""
"""What the first process of a host does: its name, its disk, and then nothing."""


class Wrong(Exception):
    """Something of the trial itself did not do what it must."""


def run(*words: object, seconds: float = PATIENCE, may_fail: bool = False) -> str:
    """What a command prints; Wrong if it fails, or needs too long."""
    texts = [str(word) for word in words]
    try:
        ended = subprocess.run(texts, stdin=subprocess.DEVNULL, stdout=subprocess.PIPE, stderr=subprocess.STDOUT, timeout=seconds)
    except subprocess.TimeoutExpired:
        if may_fail:
            return ""
        raise Wrong(f"{' '.join(texts)}: not done in {seconds} seconds") from None
    if ended.returncode and not may_fail:
        raise Wrong(f"{' '.join(texts)}: status {ended.returncode}, {ended.stdout.decode(errors='replace')}")
    return ended.stdout.decode(errors="replace")


def until(holds: Callable[[], Any], what: Union[str, Callable[[], str]], seconds: float = PATIENCE, pause: float = 0.3) -> Any:
    """Waits until something holds, and gives it; Wrong, which says what does not hold, if that needs too long."""
    end = time.monotonic() + seconds
    while not (found := holds()):
        if time.monotonic() > end:
            raise Wrong(f"not in {seconds:.0f} seconds: {what if isinstance(what, str) else what()}")
        time.sleep(pause)
    return found


def tried(name: str, needs: Sequence[str], run_in: Callable[[Path], List[str]]) -> int:
    """Runs trials in a folder of their own, if all that they need is here. The status: 1 if they tell what was wrong."""
    for program in (MWINIT, MWSERVE):
        if not os.access(program, os.X_OK):
            wrong(f"{program.name} is not built: run scripts/first-run first")
    missing = [command for command in (*NEEDS, *needs) if not shutil.which(command)]
    if missing:
        wrong(f"there is no {', '.join(missing)}")
    if os.geteuid():
        wrong("only root may make hosts")
    # (What was made is taken away then, too.)
    signal.signal(signal.SIGTERM, lambda *_: sys.exit(1))
    folder = Path(tempfile.mkdtemp(prefix=f"{name}-")).resolve()
    try:
        complaints = run_in(folder)
    except Wrong as error:
        complaints = [str(error)]
        print(f"FOUND: {error}", flush=True)
    finally:
        remove(folder)
    return 1 if complaints else 0


class Host:
    """One of the hosts. It is on once it was made."""

    def __init__(self, network: "Network", number: int, folders: Sequence[str]):
        self.network, self.number, self.folders = network, number, folders
        self.name, self.space = f"ha{number}", f"{network.tag}-{number}"
        self.address = network.address(number)
        self.disk = network.folder / self.name
        self.disk.mkdir()
        self.begun = 0
        run("ip", "netns", "add", self.space)
        network.ends.callback(run, "ip", "netns", "del", self.space, may_fail=True)
        network.plug(self.space, number)

    def on(self) -> None:
        """Switches it on, with what its disk has."""
        shutil.rmtree(f"{self.disk}/run", ignore_errors=True)
        (self.disk / "hosts").write_text(self.network.names())
        words = ["ip", "netns", "exec", self.space, "unshare", "--pid", "--fork", "--kill-child", "--mount", "--uts", "--ipc", "bash", "-c", BEGIN, "host",
                 self.name, str(self.disk), "/run", *self.folders]
        self.process = subprocess.Popen(words, stdin=subprocess.DEVNULL, stdout=subprocess.DEVNULL, stderr=subprocess.PIPE, start_new_session=True)
        until(lambda: self.process.poll() is not None or self.is_up(), f"{self.name} comes up", pause=0.02)
        if not self.begun:
            raise Wrong(f"{self.name} does not come up")
        self.network.ends.callback(self.off)

    def is_up(self) -> bool:
        """Whether its first process is there; notes which one it is."""
        children = Path(f"/proc/{self.process.pid}/task/{self.process.pid}/children").read_text().split()
        with contextlib.suppress(OSError):
            if children and Path(f"/proc/{children[0]}/comm").read_text() == "sleep\n":
                self.begun = int(children[0])
                return True
        return False

    def off(self) -> None:
        """Kills all of its processes at once. Nothing is told to anybody, if it was unplugged before."""
        if self.begun:
            with contextlib.suppress(ProcessLookupError):
                os.kill(self.begun, signal.SIGKILL)
            while self.process.poll() is None:
                self.wake()
                time.sleep(0.05)
            if self.process.stderr:
                self.process.stderr.close()
            self.begun = 0

    def wake(self) -> None:
        """Has what entered it go on: nsenter stops itself with the process that it began, and the host has not ended before that is reaped."""
        entered = b"\0".join(word.encode() for word in self.words())
        for path in Path("/proc").glob("[0-9]*/cmdline"):
            with contextlib.suppress(OSError):
                if path.read_bytes().startswith(entered):
                    os.kill(int(path.parent.name), signal.SIGCONT)

    def die(self) -> None:
        """Dies: nothing more comes from it."""
        self.unplug()
        time.sleep(0.05)
        self.off()

    def words(self, *words: object) -> List[str]:
        """The command line, here, of a command on this host."""
        return ["nsenter", "-t", str(self.begun), "-m", "-u", "-i", "-n", "-p", *map(str, words)]

    def run(self, *words: object, seconds: float = PATIENCE, may_fail: bool = False) -> str:
        return run(*self.words(*words), seconds=seconds, may_fail=may_fail)

    def path(self, path: str) -> Path:
        """Where a path of this host is found from outside, while it is on."""
        return Path(f"/proc/{self.begun}/root{path}")

    def processes(self) -> Dict[int, str]:
        """Its processes, but the first one: their numbers out here, and their command lines."""
        space, found = os.readlink(f"/proc/{self.begun}/ns/pid"), {}
        for entry in Path("/proc").iterdir():
            if entry.name.isdigit() and int(entry.name) != self.begun:
                with contextlib.suppress(OSError):
                    if os.readlink(entry / "ns/pid") == space:
                        found[int(entry.name)] = (entry / "cmdline").read_bytes().replace(b"\0", b" ").decode(errors="replace").strip()
        return {number: line for number, line in found.items() if line}

    def signal(self, number: int, part: str = "") -> List[int]:
        """Sends a signal to each of its processes whose command line has this part."""
        sent = [process for process, line in self.processes().items() if part in line]
        for process in sent:
            with contextlib.suppress(ProcessLookupError):
                os.kill(process, number)
        return sent

    def plug(self, state: str = "up") -> None:
        run("ip", "-n", self.network.switch, "link", "set", f"to-{self.number}", state)

    def unplug(self) -> None:
        self.plug("down")


def mount(host: Host, command: str, kind: str) -> None:
    """Mounts the volume, which is of this kind, and waits until it can be read."""
    def is_mounted() -> bool:
        host.run("sh", "-c", f"mountpoint -q {MOUNTED} || {command}", may_fail=True)
        return kind in host.run("sh", "-c", f"findmnt -n -o FSTYPE {MOUNTED}; stat {MOUNTED} > /dev/null", may_fail=True)
    until(is_mounted, f"{host.name} mounts the volume")


class Network:
    """A bridge, the hosts on it, and this machine."""

    def __init__(self, folder: Path, ends: contextlib.ExitStack, folders: Sequence[str]):
        self.folder, self.ends = folder, ends
        self.tag = f"mw{os.getpid()}"
        self.switch = f"{self.tag}-switch"
        run("ip", "netns", "add", self.switch)
        ends.callback(run, "ip", "netns", "del", self.switch, may_fail=True)
        run("ip", "-n", self.switch, "link", "add", "bridge", "type", "bridge")
        run("ip", "-n", self.switch, "link", "set", "bridge", "up")
        self.plug("", HERE)
        self.hosts = [Host(self, number, folders) for number in NUMBERS]

    def address(self, number: int) -> str:
        return f"10.214.{os.getpid() % 250}.{number}"

    def names(self) -> str:
        """The file of names that each host has."""
        return "127.0.0.1 localhost\n" + "".join(f"{self.address(number)} ha{number}\n" for number in NUMBERS)

    def plug(self, space: str, number: int) -> None:
        """Gives a network, or this machine's if it has no name, an address on the bridge."""
        inside = ["ip", *(["-n", space] if space else [])]
        card = "eth0" if space else f"{self.tag}h"
        run("ip", "link", "add", f"{self.tag}x", "type", "veth", "peer", "name", f"to-{number}", "netns", self.switch)
        if space:
            run("ip", "link", "set", f"{self.tag}x", "netns", space)
        else:
            self.ends.callback(run, "ip", "link", "del", card, may_fail=True)
        run(*inside, "link", "set", f"{self.tag}x", "name", card)
        run("ip", "-n", self.switch, "link", "set", f"to-{number}", "master", "bridge")
        run("ip", "-n", self.switch, "link", "set", f"to-{number}", "up")
        run(*inside, "addr", "add", f"{self.address(number)}/24", "dev", card)
        run(*inside, "link", "set", card, "up")
        if space:
            run(*inside, "link", "set", "lo", "up")

    def cut(self, one: Host, other: Host) -> None:
        """Takes the way between two hosts: what one sends to the other is lost."""
        for sender, receiver in ((one, other), (other, one)):
            run("ip", "-n", sender.space, "neigh", "replace", receiver.address, "lladdr", NOWHERE, "nud", "permanent", "dev", "eth0")

    def mend(self) -> None:
        """All ways are there again."""
        for host in self.hosts:
            host.plug()
            for other in self.hosts:
                if other is not host:
                    run("ip", "-n", host.space, "neigh", "del", other.address, "dev", "eth0", may_fail=True)
