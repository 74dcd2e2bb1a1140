"""What contrib/ha does without a volume: it serves nothing, times by the rule, the start of the unit that is refused, locks that are waited for
with a limit, the options that the server gets, and pauses.

Used by: scripts/check-programs, scripts/check-failover. TIMES is by the rule of docs/MANY-MACHINES.md: change both, and mondlexi-volume.
"""
import contextlib
import fcntl
import io
import os
import re
import socket
import subprocess
import sys
import time
from importlib.machinery import SourceFileLoader
from pathlib import Path
from typing import Callable, Dict, List
from unittest import mock

from .common import MWINIT, MWSERVE, PATIENCE, TOP, ran, same, wrong
from .served import HOST, make_tenants

HA = TOP / "contrib/ha"
UNIT, KEEPER, VOLUME = (HA / name for name in ("mondlexi-ha@.service", "mondlexi-ha", "mondlexi-volume"))
REFUSED = "refused"
TIMES = ((2, 7, "beat 0.5\nlimit 6\nrelease 7\n"), (2, 6, REFUSED), (2, 8, "beat 0.5\nlimit 7\nrelease 8\n"), (1, 4, "beat 0.5\nlimit 3\nrelease 4\n"),
         (3, 7, REFUSED), (3, 8, REFUSED), (3, 9, "beat 0.5\nlimit 8\nrelease 9\n"), (0, 7, REFUSED), (10, 24, REFUSED), (10, 25, "beat 0.5\nlimit 24\nrelease 25\n"))
"""By hand: the ping timeout, the release, and the times that mondlexi-volume prints. With 2 and 6 a beat of mondlexi-ha comes in time, and one of
the server's lease needs not: 5/8 + 2 * 2 + 0.5 is more than 5."""
SHAPE = {"replica_count": "3", "arbiter_count": "0", "thin_arbiter_count": "0", "disperse_count": "0"}
LIMITED = "beat 0.5\nlimit 6\nrelease 7\n"
WAITS = 1.0
PAUSES = 2
MOUNTS = """+/bin/sh -c 'systemctl start "$(systemd-escape -p --suffix=mount "$MOUNTED")"'"""
"""What the unit runs first at each start: a host that was the first to come back couldn't mount the volume at boot."""
ON_VOLUME = """import sys
from importlib.machinery import SourceFileLoader
sys.dont_write_bytecode = True
ha = SourceFileLoader("ha", sys.argv.pop(1)).load_module()
ha.kind_of = lambda folder: ha.VOLUME
ha.main()
"""
"""mondlexi-ha, for which each folder is on a volume."""


def before_start(times: Path) -> List[str]:
    """What the unit of a server of the volume mw runs before it starts, and which must go well; the times go to this file."""
    mounts, command = re.findall(r"^ExecStartPre=(.*)$", UNIT.read_text(), re.MULTILINE)
    same(mounts, MOUNTS, "what the unit runs first")
    found = command[1:].replace("/usr/local/bin", str(HA)).replace("$VOLUME", "mw").replace("/run/mondlexi-ha-%i/times", str(times)).split(" ")
    same(found, [str(VOLUME), "times", "mw", "--write", str(times)], "what the unit runs before it starts")
    return found


def try_times(folder: Path) -> None:
    """The unit is not started where times don't fit; else mondlexi-ha gets these."""
    volume, times = SourceFileLoader("mondlexi_volume", str(VOLUME)).load_module(), folder / "times"
    setattr(volume, "STATE", folder)
    (folder / "mw").mkdir()
    options: Dict[str, str] = {**SHAPE, **volume.pairs((HA / "volume-options").read_text().splitlines(), " ")}
    for ping, release, wanted in TIMES:
        options.update({"network.ping-timeout": str(ping), "server.tcp-user-timeout": str(release)})
        (folder / "mw/info").write_text("".join(f"{name}={value}\n" for name, value in options.items()))
        with mock.patch.object(sys, "argv", before_start(times)), contextlib.redirect_stderr(io.StringIO()) as told:
            status = volume.main()
        found = times.read_text() if times.exists() else REFUSED
        same((status, found, bool(told.getvalue())), (int(wanted == REFUSED), wanted, wanted == REFUSED), f"ping timeout {ping}, release {release}")
        times.unlink(missing_ok=True)
    print(f"contrib/ha: the unit doesn't start where times don't fit, by the rule, of {len(TIMES)} volumes")


def try_patience(folder: Path) -> None:
    """mondlexi-ha ends if a tenant's file, or the lease's, stays locked for longer than its patience."""
    times, first = folder / "limited", folder / "a/first"
    times.write_text(LIMITED)
    first.mkdir(parents=True)
    make_tenants(MWINIT, first, {"t": 2}, 1)
    (first / ".lease").touch()
    for path in (first / "t.mw", first / ".lease"):
        with open(path, "r+b") as held:
            fcntl.flock(held, fcntl.LOCK_EX)
            begun = time.monotonic()
            words = (sys.executable, "-c", ON_VOLUME, KEEPER, folder / "a", "--times", times, "--patience", WAITS, "--", MWSERVE, "--listen", "127.0.0.1:0")
            status, told, errors = ran(*words, timeout=PATIENCE)
            same((status, errors.splitlines()[-1:], told), (1, [f"mondlexi-ha: {path} is locked by another"], ""), f"mondlexi-ha where {path.name} is locked")
            same(time.monotonic() - begun > WAITS, True, "that mondlexi-ha waits for a lock")
    print("contrib/ha: mondlexi-ha ends if a tenant's file or the lease stays locked for longer than its patience")


def try_no_volume(folder: Path) -> None:
    """With --times mondlexi-ha refuses a folder that isn't there, or isn't on a volume, and makes nothing; so the unit is started again."""
    times, local, away = folder / "times-of-a-volume", folder / "local", folder / "away"
    times.write_text(LIMITED)
    (local / "first").mkdir(parents=True)
    make_tenants(MWINIT, local / "first", {"t": 2}, 1)
    before = sorted(local.rglob("*"))
    for it, text in ((local, rf"{local} is on [\w. ]+, and must be on a volume of GlusterFS: mount the volume, or leave --times out"),
                     (away, f"{away} is not there: is the volume mounted[?]")):
        status, told, errors = ran(KEEPER, it, "--times", times, "--", MWSERVE, "--listen", "127.0.0.1:0", timeout=PATIENCE)
        same((status, told, bool(re.fullmatch(f"mondlexi-ha: {text}\n", errors))), (1, "", True), f"mondlexi-ha without a volume: {errors}")
    same((sorted(local.rglob("*")), away.exists()), (before, False), "the folders that mondlexi-ha refused")
    same(re.findall("^Restart=.*", UNIT.read_text(), re.MULTILINE), ["Restart=always"], "that the unit is started again")
    print("contrib/ha: with --times mondlexi-ha refuses a folder that isn't there, or isn't on a volume")


def try_options(folder: Path) -> None:
    """mondlexi-ha gives the server what helps and isn't given anyway. A number that it is given is no option."""
    ha = SourceFileLoader("mondlexi_ha", str(KEEPER)).load_module()
    for more, limit, wanted in ((["--workers", "6"], 6.0, ["--end-on-failure", "--lease", ".lease", "--lease-time", "6"]),
                                (["--workers", "6"], 0.0, ["--end-on-failure"]),
                                (["--end-on-failure", "--lease", "own", "--lease-time", "9"], 6.0, [])):
        found = ha.Keeper(folder, ha.Times(0.5, limit), WAITS, [str(MWSERVE), *more]).more_options()
        same(found, wanted, f"what mondlexi-ha adds to {more}, with a limit of {limit:g}")


def try_pauses(folder: Path) -> None:
    """While there is a pause mondlexi-ha keeps no server, and has no file open. Then it keeps one again, which dies with it."""
    times = folder / "times-of-pauses"
    times.write_text(LIMITED)
    for name, words in (("paused", [KEEPER]), ("paused-on-a-volume", [sys.executable, "-c", ON_VOLUME, KEEPER])):
        room = folder / name
        (room / "first").mkdir(parents=True)
        make_tenants(MWINIT, room / "first", {"t": 2}, 1)
        more = ["--times", times] if len(words) > 1 else []
        command = [str(it) for it in (*words, room, *more, "--", MWSERVE, "--listen", f"{HOST}:0")]
        keeper = subprocess.Popen(command, stdin=subprocess.DEVNULL, stdout=subprocess.PIPE, stderr=subprocess.DEVNULL, text=True)
        assert keeper.stdout
        try:
            for _ in range(PAUSES):
                port = int(keeper.stdout.readline().split()[1])
                (room / "pause").touch()
                until(lambda: not is_served(port) and not open_files(keeper.pid, room), f"a pause of {name}")
                (room / "pause").unlink()
            port = int(keeper.stdout.readline().split()[1])
            same(is_served(port), True, f"the server after the pauses of {name}")
        finally:
            keeper.kill()
            keeper.communicate()
        until(lambda: not is_served(port), f"the death of the server of {name}")
    print(f"contrib/ha: after each of {PAUSES} pauses mondlexi-ha keeps a server, and the last one dies with it")


def is_served(port: int) -> bool:
    with contextlib.suppress(OSError), socket.create_connection((HOST, port), PATIENCE):
        return True
    return False


def open_files(process: int, folder: Path) -> List[str]:
    """What a process has open below a folder."""
    found: List[str] = []
    for it in Path(f"/proc/{process}/fd").iterdir():
        with contextlib.suppress(OSError):
            found.append(os.readlink(it))
    return [it for it in found if it.startswith(f"{folder}/")]


def until(is_so: Callable[[], bool], what: str) -> None:
    end = time.monotonic() + PATIENCE
    while not is_so():
        if time.monotonic() > end:
            wrong(f"{what}: not within {PATIENCE} seconds")
        time.sleep(0.05)


def try_all(folder: Path) -> None:
    """Does what the head says."""
    folder.mkdir()
    try_options(folder)
    try_no_volume(folder)
    try_times(folder)
    try_patience(folder)
    try_pauses(folder)
