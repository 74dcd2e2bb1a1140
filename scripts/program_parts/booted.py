"""Where a new Debian comes from, and whether one can be made and booted here. Boots a folder with one in a container, and lets
as_operator.py do there what an operator does.

Used by: scripts/check-package, as root; scripts/check-programs, which tells that this was left out. The container has systemd as its
first process, a network of its own and a limit of time, and ends when this process does, however that ends. Nothing stays mounted.
"""
import ctypes
import os
import shutil
import signal
import subprocess
import time
import urllib.request
from pathlib import Path
from typing import Callable, List

from .common import PATIENCE, has, wrong

MIRROR = "http://deb.debian.org/debian"
RELEASE = "bookworm"
TO_BOOT = "systemd,dbus,haproxy,openssl,procps"
"""What it needs further to be booted, and for a proxy in front, whose reload calls kill."""
TO_TALK = "netcat-openbsd,curl,python3"
"""What the pages' commands, the package and its client need further."""
GROUPS = Path("/sys/fs/cgroup")
LIMIT = 300
"""For how many seconds one boot may go on; it takes some two minutes on four cores."""
GRACE = 10
"""For how many seconds a halt may take."""
PLACE = Path("root/tried")
STEPS = [Path(__file__).resolve().parent / name for name in ("as_operator.py", "units.py", "upkeep.py")]
UNIT = """[Unit]
Description=What scripts/check-package tries
SuccessAction=poweroff
FailureAction=poweroff
[Service]
ExecStart=/usr/bin/python3 -u /{place}/as_operator.py /{place}/{deb} {boot} {archive}
StandardOutput=file:/{place}/told
StandardError=file:/{place}/errors
ExecStopPost=sh -c 'journalctl --boot --no-pager > /{place}/journal'
RuntimeMaxSec={limit}
"""
PROPAGATED = Path("/run/systemd/nspawn/propagate")
"""Where systemd-nspawn makes a folder for each container, and leaves it."""
END_WITH_PARENT = 1
"""prctl's PR_SET_PDEATHSIG."""


def no_debian() -> str:
    """Why no new Debian can be made here; nothing if one can."""
    if not has("debootstrap"):
        return "there is no debootstrap"
    try:
        urllib.request.urlopen(f"{MIRROR}/dists/{RELEASE}/Release", timeout=PATIENCE).close()
    except OSError as error:
        return f"{MIRROR} can't be reached: {error}"
    return ""


def no_boot() -> str:
    """Why no Debian can be booted in a container here; nothing if one can."""
    if not has("systemd-nspawn"):
        return "there is no systemd-nspawn (package systemd-container)"
    groups = GROUPS / "systemd" if (GROUPS / "systemd").is_dir() else GROUPS
    return "" if os.access(groups, os.W_OK) else f"no control group can be made in {groups}"


def own_groups(name: str) -> List[Path]:
    """Makes a control group for a container in each tree that systemd uses. None where systemd runs, which makes one itself."""
    trees = [] if Path("/run/systemd/system").is_dir() else [GROUPS / "systemd", GROUPS / "unified", GROUPS]
    made = [it / name for it in trees if (it / "cgroup.procs").exists()]
    for it in made:
        it.mkdir()
    return made


def begin_in(groups: List[Path]) -> Callable[[], None]:
    """What a new child does first: it enters these groups, and has the system kill it when its parent ends."""
    def begin() -> None:
        ctypes.CDLL(None).prctl(END_WITH_PARENT, signal.SIGKILL)
        for it in groups:
            (it / "cgroup.procs").write_text("0")
    return begin


def prepare(root: Path, deb: Path, boot: int, archive: List[Path]) -> None:
    """Puts the packages and what is done with them into the folder, and has the boot start it."""
    place = root / PLACE
    place.mkdir(exist_ok=True)
    for it in ("told", "errors", "journal", "console"):
        (place / it).unlink(missing_ok=True)
    for it in (*STEPS, deb, *archive):
        shutil.copy(it, place)
    name, units = "tried.service", root / "etc/systemd/system"
    there = " ".join(f"/{PLACE}/{it.name}" for it in archive)
    (units / name).write_text(UNIT.format(place=PLACE, deb=deb.name, boot=boot, archive=there, limit=LIMIT))
    (units / "multi-user.target.wants").mkdir(exist_ok=True)
    if not (units / "multi-user.target.wants" / name).is_symlink():
        (units / "multi-user.target.wants" / name).symlink_to(f"../{name}")


def boot_once(root: Path) -> None:
    """Boots the folder, and waits until it has halted."""
    name = f"check-package-{os.getpid()}"
    groups = own_groups(name)
    # (in namespaces of its own: what the container leaves mounted goes with it, and each of its processes ends with unshare)
    words = ["unshare", "--mount", "--pid", "--fork", "--kill-child", "--mount-proc",
             "systemd-nspawn", "--quiet", "--register=no", *(["--keep-unit"] if groups else []), "--private-network",
             "--machine", name, "--boot", "--directory", str(root)]
    with open(root / PLACE / "console", "wb") as console:
        container = subprocess.Popen(words, stdin=subprocess.DEVNULL, stdout=console, stderr=subprocess.STDOUT,
                                     start_new_session=True, preexec_fn=begin_in(groups))
    try:
        container.wait(LIMIT + GRACE)
    except subprocess.TimeoutExpired:
        pass
    finally:
        container.kill()
        container.wait()
        for top in (*groups, PROPAGATED / name):
            remove_folders(top)


def remove_folders(top: Path) -> None:
    """Removes a folder of folders, such as a control group, once nothing runs there any more."""
    until = time.monotonic() + GRACE
    while top.exists() and time.monotonic() < until:
        for folder in [*sorted(top.rglob("*/"), reverse=True), top]:
            try:
                folder.rmdir()
            except OSError:
                time.sleep(0.01)


def told(root: Path, name: str) -> str:
    """A file that a boot has left."""
    path = root / PLACE / name
    return path.read_text(errors="replace") if path.exists() else ""


def try_booted(root: Path, deb: Path, archive: List[Path]) -> List[str]:
    """Boots the folder twice, and does there what an operator does with a .deb, and with an archive if there is one. Gives what was tried."""
    lines = []
    for boot in (1, 2):
        prepare(root, deb, boot, archive)
        boot_once(root)
        found = told(root, "told").splitlines()
        if found[-1:] != ["all well"]:
            last = "\n".join((told(root, "journal") or told(root, "console")).splitlines()[-40:])
            wrong("\n".join([f"{deb.name} in a Debian that was booted ({boot})", *found, told(root, "errors"), last]))
        lines += found[:-1]
    return lines
