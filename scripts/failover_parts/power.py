"""Each host's replica on a device of its own, so that a host can lose its power: it comes back with what the device held at that moment. What was
in the file system's memory alone is lost, but for the writes to files: of what was not synced each is kept, lost or torn (bricks.py).

The devices are loop devices with ext4 in files. Used by: scripts/check-failover, trials.py.
"""
import contextlib
import shutil
from typing import Dict

from .hosts import Host, Network, run

NEEDS = ("losetup", "mkfs.ext4", "strace")
MEGABYTES = 128
OPTIONS = "commit=300"
"""The file system writes by itself as late as it can."""


class Device:
    """The device of one host's replica, mounted where the host finds it."""

    def __init__(self, host: Host, ends: contextlib.ExitStack):
        self.host, self.number = host, 0
        self.folder = host.disk / "brick"
        self.folder.mkdir()
        with open(self.image(), "wb") as it:
            it.truncate(MEGABYTES << 20)
        run("mkfs.ext4", "-q", self.image())
        self.loop = ""
        self.mount()
        ends.callback(self.unmount)

    def image(self) -> str:
        return f"{self.host.disk}/image-{self.number}"

    def mount(self) -> None:
        self.loop = run("losetup", "--find", "--show", self.image()).strip()
        run("mount", "-o", OPTIONS, self.loop, self.folder)

    def unmount(self) -> None:
        run("umount", self.folder, may_fail=True)
        run("losetup", "--detach", self.loop, may_fail=True)

    def lose(self) -> None:
        """Of a host that was just killed: its device has what it holds at this moment."""
        old, self.number = self.image(), self.number + 1
        run("cp", "--sparse=always", old, self.image())
        self.unmount()
        self.mount()


def devices(network: Network, ends: contextlib.ExitStack) -> Dict[int, Device]:
    """A device for each host, before it is on; none where none can be made."""
    if not all(shutil.which(command) for command in NEEDS):
        return {}
    return {host.number: Device(host, ends) for host in network.hosts}
