"""A volume of GlusterFS on three hosts, each with a replica, and with the options of contrib/ha/volume-options.

Used by: scripts/check-failover, scripts/check-volume, keepers.py, moves.py, proxy.py, speed.py, trials.py.
"""
from pathlib import Path
from typing import Dict

from .hosts import MOUNTED, Host, Network, mount, run, until

TOP = Path(__file__).resolve().parent.parent.parent
VOLUME = "mw"
LOCAL = "/brick/local"
"""A folder on a host's own disk."""
FOLDERS = ("/var/lib/glusterd", "/var/log/glusterfs", "/etc/glusterfs", "/brick", "/srv")
"""What of a host stays when it dies."""
NEEDS = ("glusterd", "gluster", "mount.glusterfs")
SCRIPT = TOP / "contrib/ha/mondlexi-volume"
MOUNT_PROCESS = "--process-name fuse"
"""A part of the command line of the process of a mount."""
MOUNT = f"mount -t glusterfs -o direct-io-mode=enable,backup-volfile-servers=ha1:ha2:ha3 localhost:/{VOLUME} {MOUNTED}"


def begin(host: Host) -> None:
    """Starts the host's part of the engine. It starts its replica if there is one."""
    for folder in ("/var/lib/glusterd", "/var/log/glusterfs", "/brick/b", MOUNTED):
        host.path(folder).mkdir(parents=True, exist_ok=True)
    if not host.path("/etc/glusterfs/glusterd.vol").exists():
        run("sh", "-c", f"cp -a /etc/glusterfs/. {host.path('/etc/glusterfs')}/")
    host.path("/run/gluster").mkdir(exist_ok=True)
    host.run("glusterd", "-p", "/run/glusterd.pid", "-l", "/var/log/glusterfs/glusterd.log")


def gluster(host: Host, *words: object, may_fail: bool = False) -> str:
    return host.run("gluster", "--mode=script", *words, seconds=130, may_fail=may_fail)


def make(network: Network) -> None:
    """The volume, with its options, on hosts that are on."""
    one = network.hosts[0]
    for host in network.hosts:
        begin(host)
    for host in network.hosts[1:]:
        until(lambda: "success" in gluster(one, "peer", "probe", host.name, may_fail=True), f"{host.name} joins")
    until(lambda: gluster(one, "peer", "status").count("Peer in Cluster (Connected)") == 2, "all hosts are joined")
    bricks = [f"{host.name}:/brick/b" for host in network.hosts]
    until(lambda: "success" in gluster(one, "volume", "create", VOLUME, "replica", 3, *bricks, "force", may_fail=True), "the volume is made")
    one.run(SCRIPT, "set", VOLUME, seconds=130)
    gluster(one, "volume", "start", VOLUME)
    for host in network.hosts:
        mount(host, MOUNT, "fuse.glusterfs")


def again(*hosts: Host) -> None:
    """Hosts that died come back, with their disks."""
    for host in hosts:
        host.plug()
        host.on()
        begin(host)
    for host in hosts:
        mount(host, MOUNT, "fuse.glusterfs")


def mount_anew(host: Host) -> None:
    """Of a host whose mount's process has died, as docs/MANY-MACHINES has it."""
    until(lambda: not host.run("umount", MOUNTED, may_fail=True), f"{host.name} lets the volume go")
    mount(host, MOUNT, "fuse.glusterfs")


def healed(network: Network, seconds: float) -> None:
    """Until all replicas are there, and equal as the engine sees it; but for the files of the lock and the lease, which are written to all the time."""
    host = next(host for host in network.hosts if host.begun)

    def told() -> str:
        return gluster(host, "volume", "heal", VOLUME, "info", may_fail=True)

    def are_equal() -> bool:
        now = told()
        behind = [line for line in now.splitlines() if line.startswith(("/", "<")) and not line.strip().endswith(("/lock", "/.lease"))]
        return now.count("Status: Connected") == 3 and not behind

    until(are_equal, lambda: f"all replicas are equal: {told()}", seconds)


def replicas(network: Network, path: str) -> Dict[str, bytes]:
    """What each host's replica has of a file, by the paths of their disks."""
    return {host.name: (host.disk / "brick/b" / path).read_bytes() for host in network.hosts}
