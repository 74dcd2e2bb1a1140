"""CephFS on three hosts: each has a monitor, a manager, a metadata server and an OSD (a disk's program), and each object three replicas.

All is as small as a trial needs, without keys: nobody else is on the hosts' network. Used by: scripts/check-volume.
"""
import uuid

from .hosts import MOUNTED, Host, Network, mount, until

LOCAL = "/srv/local"
FOLDERS = ("/etc/ceph", "/var/lib/ceph", "/var/log/ceph", "/srv")
NEEDS = ("ceph", "ceph-mon", "ceph-osd", "ceph-mds", "ceph-mgr", "ceph-fuse", "monmaptool")
SESSION = 30
"""After so many seconds the metadata server takes a silent client's locks; it allows no fewer. By default it takes them from nobody while an OSD is
missing, as one is when a host has died: `defer_client_eviction_on_laggy_osds`."""
CONFIGURATION = """[global]
fsid = {fsid}
mon_host = {addresses}
auth_cluster_required = none
auth_service_required = none
auth_client_required = none
public_network = {network}.0/24
osd_pool_default_size = 3
osd_pool_default_min_size = 2
osd_objectstore = bluestore
bluestore_block_size = 4294967296
bluestore_block_create = true
osd_memory_target = 939524096
osd_heartbeat_interval = 1
osd_heartbeat_grace = 4
mon_osd_adjust_heartbeat_grace = false
mon_osd_min_down_reporters = 1
mds_beacon_interval = 1
mds_beacon_grace = 4
defer_client_eviction_on_laggy_osds = false
mon_warn_on_pool_no_redundancy = false
admin_socket = /run/ceph/$cluster-$name.asok
run_dir = /run/ceph
[mon]
mon_allow_pool_size_one = true
mon_data_avail_crit = 1
mon_data_avail_warn = 2
"""


def prepare(network: Network) -> None:
    """The monitors' first map, and the same configuration on each host."""
    fsid, prefix = str(uuid.uuid4()), network.address(0).rsplit(".", 1)[0]
    text = CONFIGURATION.format(fsid=fsid, addresses=",".join(host.address for host in network.hosts), network=prefix)
    for host in network.hosts:
        for folder in ("/etc/ceph", f"/var/lib/ceph/mon/ceph-{host.name}", f"/var/lib/ceph/osd/ceph-{host.number - 1}",
                       f"/var/lib/ceph/mds/ceph-{host.name}", f"/var/lib/ceph/mgr/ceph-{host.name}", "/var/log/ceph", MOUNTED):
            host.path(folder).mkdir(parents=True, exist_ok=True)
        host.path("/etc/ceph/ceph.conf").write_text(text)
        monitors = [word for it in network.hosts for word in ("--add", it.name, f"{it.address}:6789")]
        host.run("monmaptool", "--create", "--fsid", fsid, *monitors, "/etc/ceph/monmap")
        host.run("ceph-mon", "--mkfs", "-i", host.name, "--monmap", "/etc/ceph/monmap")


def ceph(host: Host, *words: object, may_fail: bool = False) -> str:
    return host.run("ceph", "--connect-timeout", 10, *words, may_fail=may_fail)


def make(network: Network) -> None:
    """The file system, mounted on each host."""
    prepare(network)
    one = network.hosts[0]
    for host in network.hosts:
        host.path("/run/ceph").mkdir(exist_ok=True)
        host.run("ceph-mon", "-i", host.name, "--public-addr", host.address)
    until(lambda: "quorum" in ceph(one, "quorum_status", may_fail=True), "the monitors agree")
    ceph(one, "mon", "enable-msgr2", may_fail=True)
    for host in network.hosts:
        osd = str(uuid.uuid4())
        ceph(one, "osd", "new", osd, host.number - 1)
        host.run("ceph-osd", "-i", host.number - 1, "--mkfs", "--osd-uuid", osd)
        ceph(one, "osd", "crush", "add-bucket", host.name, "host")
        ceph(one, "osd", "crush", "move", host.name, "root=default")
        ceph(one, "osd", "crush", "add", f"osd.{host.number - 1}", 1.0, f"host={host.name}")
        host.run("ceph-mgr", "-i", host.name)
        host.run("ceph-osd", "-i", host.number - 1)
        host.run("ceph-mds", "-i", host.name)
    for pool in ("names", "bytes"):
        ceph(one, "osd", "pool", "create", pool, 8, 8)
        ceph(one, "osd", "pool", "set", pool, "size", 3)
        ceph(one, "osd", "pool", "set", pool, "min_size", 2)
    ceph(one, "fs", "new", "mw", "names", "bytes")
    for option in ("session_timeout", "session_autoclose"):
        ceph(one, "fs", "set", "mw", option, SESSION)
    until(lambda: "up:active" in ceph(one, "mds", "stat", may_fail=True), "a metadata server is active")
    for host in network.hosts:
        # (Without caches of what was read or written.)
        mount(host, f"timeout 20 ceph-fuse --client_oc=false {MOUNTED}", "fuse")
