"""What was recorded of the calls on tenants' files, and what a power cut may leave of a file.

The recorder (recorder.c) is loaded into the built mwserve. The disk is the one of docs/OPERATING.md, *Which disks*: between
two syncs that went well each range that was written, also by a write that failed, may hold any bytes after a crash.

Used by: scripts/check-backup, scripts/check-cache, scripts/soak, lives.py, planted_writers.py, power.py, server.py,
failover_parts/bricks.py, failover_parts/cuts.py. It reads the lines that recorder.c writes: change both.
"""
import random
import shutil
import subprocess
from dataclasses import dataclass, field
from enum import Enum
from pathlib import Path
from typing import Dict, Iterator, List, NamedTuple, Optional, Sequence, Tuple

AT_THE_END = 2 ** 63
"""A time behind all others."""
SOURCE = Path(__file__).resolve().parent / "recorder.c"


class Kind(Enum):
    """What was asked of the device, or of the system's cache (DROP). A READ is written down only where it failed."""
    WRITE = "write"
    SYNC = "sync"
    READ = "read"
    DROP = "drop"


@dataclass
class Call:
    """A call on a file. `went_well` is None where the server ended before the call did."""
    kind: Kind
    begun: int
    offset: int = 0
    data: bytes = b""
    went_well: Optional[bool] = None


@dataclass
class FileLog:
    """All calls of one life of a server on one file, in order. `failed_at`: when the first of them failed, if any did.
    `opened`: how many came before its bytes were first read."""
    calls: List[Call] = field(default_factory=list)
    failed_at: Optional[int] = None
    opened: int = 0


class Write(NamedTuple):
    """Bytes that were written and not synced."""
    offset: int
    data: bytes


@dataclass
class Disk:
    """What is durable of a file, and what was written since its last sync that went well."""
    durable: bytes
    unsynced: List[Write] = field(default_factory=list)

    def synced(self) -> bytes:
        """What a sync would make durable."""
        found = self.durable
        for offset, data in self.unsynced:
            found = put(found, offset, data)
        return found

    def make(self, call: Call) -> None:
        """Goes on by a call."""
        if call.kind is Kind.WRITE:
            self.unsynced.append(Write(call.offset, call.data))
        elif call.kind is Kind.SYNC and call.went_well:
            self.durable, self.unsynced = self.synced(), []


def build_recorder(folder: Path) -> Optional[Path]:
    """The recorder, compiled; None where there is no compiler `cc`."""
    if shutil.which("cc") is None:
        return None
    built = folder / "recorder.so"
    subprocess.run(["cc", "-O1", "-Wall", "-shared", "-fPIC", "-o", built, SOURCE, "-ldl", "-lpthread"], check=True)
    return built


def put(bytes_before: bytes, offset: int, data: bytes) -> bytes:
    """The bytes with others put over them."""
    return bytes_before[:offset] + data + bytes_before[offset + len(data):]


def read_log(path: Path) -> Dict[str, FileLog]:
    """The calls on each file. A last line that the server's end has cut off is left out: its call was not made."""
    logs: Dict[str, FileLog] = {}
    text = path.read_text() if path.exists() else ""
    for line in text[:text.rfind("\n") + 1].splitlines():
        what, name, time, *rest = line.split(" ")
        add_record(logs.setdefault(name, FileLog()), what, int(time), rest)
    return logs


def add_record(log: FileLog, what: str, time: int, rest: Sequence[str]) -> None:
    """One line of the records."""
    if what in ("write", "sync", "drop"):
        offset, data = (int(rest[0]), bytes.fromhex(rest[1])) if rest else (0, b"")
        log.calls.append(Call(Kind(what), time, offset, data, True if what == "drop" else None))
    elif what == "open":
        log.opened = len(log.calls)
    elif what == "end":
        log.calls[-1].went_well = True
    elif what == "fail":
        if not log.calls or log.calls[-1].went_well is not None:
            log.calls.append(Call(Kind.READ, time))
        log.calls[-1].went_well = False
        log.failed_at = log.failed_at or time
    else:
        raise ValueError(f"not a record: {what}")


def calls_behind_a_failure(log: FileLog) -> int:
    """How many calls were made on the file after one that had failed: there should be none."""
    failed = [index for index, call in enumerate(log.calls) if call.went_well is False]
    return len(log.calls) - 1 - failed[0] if failed else 0


def torn_anyhow(dice: random.Random, before: bytes, data: bytes) -> bytes:
    """Some way in which a range that was being written may be left."""
    at = dice.randint(0, len(data))
    ways = (lambda: data, lambda: before, lambda: data[:at] + before[at:], lambda: before[:at] + data[at:],
            lambda: bytes(map(dice.choice, zip(before, data))), lambda: dice.choice((b"\0", b"\xff", b"\xa5")) * len(data),
            lambda: bytes(dice.randrange(256) for _ in data))
    return dice.choice(ways)()


def image(disk: Disk, dice: random.Random, torn: Optional[int] = None, at: int = 0) -> bytes:
    """What a power cut leaves: each unsynced write in some state, and the one of index `torn` cut off at a byte."""
    found = disk.durable
    for index, (offset, data) in enumerate(disk.unsynced):
        before = found[offset:offset + len(data)]
        found = put(found, offset, data[:at] + before[at:] if index == torn else torn_anyhow(dice, before, data))
    return found


def plain_images(disk: Disk) -> Iterator[bytes]:
    """What is left where all that wasn't synced is lost, and where all of it is there."""
    yield disk.durable
    yield disk.synced()


def after_power_cut(durable: bytes, log: FileLog, dice: random.Random) -> bytes:
    """What a cut at the end of this life leaves of a file, one of the many things that it may leave."""
    disk = Disk(durable)
    for call in log.calls:
        disk.make(call)
    return dice.choice([*plain_images(disk), image(disk, dice), image(disk, dice)])


def cuts(durable: bytes, log: FileLog) -> Iterator[Tuple[int, Disk]]:
    """Each moment before a call, from the opening on, and the one behind the last call: its time, and the disk then."""
    disk = Disk(durable)
    for count, call in enumerate(log.calls):
        if count >= log.opened:
            yield call.begun, Disk(disk.durable, list(disk.unsynced))
        disk.make(call)
    yield AT_THE_END, disk


def images_of(disk: Disk, dice: random.Random) -> Iterator[bytes]:
    """What a cut at one moment may leave: all that wasn't synced lost, or there; each write torn at each of its bytes, with
    all others in any state; and some in which each is in any state."""
    yield from plain_images(disk)
    if not disk.unsynced:
        return
    for torn, write in enumerate(disk.unsynced):
        for at in range(1, len(write.data)):
            yield image(disk, dice, torn, at)
    for _ in range(4):
        yield image(disk, dice)


def random_image(disk: Disk, dice: random.Random) -> bytes:
    """One of the images of a moment: mostly one with a write that is torn at a byte, each as likely."""
    count = sum(len(write.data) for write in disk.unsynced)
    if count == 0:
        return disk.durable
    at = dice.randrange(count)
    for torn, write in enumerate(disk.unsynced):
        if at < len(write.data):
            break
        at -= len(write.data)
    return image(disk, dice, torn, at) if at > 0 else image(disk, dice)
