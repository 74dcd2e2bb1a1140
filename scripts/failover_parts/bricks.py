"""What the program of a replica writes to its files and syncs, recorded by strace, and what a loss of power may leave of them: each range that
was written since the file's last sync that went well is kept, lost or torn, as scripts/soak has it.

Used by: cuts.py, trials.py. It reads what strace prints.
"""
import random
import re
import subprocess
from dataclasses import dataclass, field
from pathlib import Path
from time import monotonic_ns, time_ns
from typing import Dict, Iterator, List, NamedTuple, Optional

from soak_parts.recording import AT_THE_END, Disk, Write, image, plain_images, put

from .hosts import Host, Wrong, run

PROGRAM = "glusterfsd"
BRICK = "/brick/"
"""Where a host has its replica's device."""
CALLS = "pwrite64,pwritev,pwritev2,fsync,fdatasync"
SYNCS = ("fsync", "fdatasync")
LONGEST = 1 << 22
"""How many bytes of a write strace prints at most."""
BEGUN = re.compile(r"(\d+) +(\d+)\.(\d{9}) (\w+)\(\d+<((?:\\x[0-9a-f]{2})+)>(.*)")
"""A call: its thread, when it began, its name, its file, and the rest of the line."""
RESUMED = re.compile(r"(\d+) +[\d.]+ <\.\.\. \w+ resumed>.*\) += (-?\d+)")
RESULT = re.compile(r"\) += (-?\d+)[^\"]*$")
TEXT = re.compile(r'"((?:\\x[0-9a-f]{2})*)"')
PLACE = re.compile(r'["\]], \d+, (\d+)')


@dataclass
class Call:
    """A write or a sync. Its begin and its end are lines of the record; there is no end where the power went before. A write has an offset. `at`:
    when it began, by the system's time."""
    begun: int
    at: int
    ended: Optional[int] = None
    went_well: bool = False
    offset: int = 0
    data: bytes = b""


@dataclass
class FileCalls:
    """What was asked for one file, in order."""
    writes: List[Call] = field(default_factory=list)
    syncs: List[Call] = field(default_factory=list)

    def disk(self, before: bytes, until: int = AT_THE_END, lies: bool = False) -> Disk:
        """What is durable of the file, which had these bytes, before a line of the record, and what is not. With `lies` no sync does anything."""
        writes = sorted((it for it in self.writes if it.begun < until), key=lambda it: it.begun)
        size = max([len(before), *(it.offset + len(it.data) for it in writes)])
        synced = max((it.begun for it in self.syncs if it.went_well and it.ended < until and not lies), default=0)
        disk = Disk(before.ljust(size, b"\0"))
        for it in writes:
            if it.ended is not None and it.ended < synced:
                disk.durable = put(disk.durable, it.offset, it.data)
            else:
                disk.unsynced.append(Write(it.offset, it.data))
        return disk


def bytes_of(text: str) -> bytes:
    """The bytes that strace printed so."""
    return bytes.fromhex(text.replace("\\x", ""))


def read_record(lines: List[str]) -> Dict[str, FileCalls]:
    """The calls of a record, by the paths of their files."""
    found: Dict[str, FileCalls] = {}
    under_way: Dict[str, Call] = {}
    for number, line in enumerate(lines, 1):
        begun, resumed = BEGUN.match(line), RESUMED.match(line)
        if begun:
            thread, seconds, nanoseconds, name, path, rest = begun.groups()
            call, file = Call(number, int(seconds + nanoseconds)), found.setdefault(bytes_of(path).decode(errors="surrogateescape"), FileCalls())
            if name in SYNCS:
                file.syncs.append(call)
            else:
                call.offset, call.data = int(PLACE.findall(rest)[-1]), b"".join(map(bytes_of, TEXT.findall(rest)))
                file.writes.append(call)
            result = RESULT.search(rest)
            if result:
                end(call, number, int(result[1]))
            else:
                under_way[thread] = call
        elif resumed and resumed[1] in under_way:
            end(under_way.pop(resumed[1]), number, int(resumed[2]))
    return found


def end(call: Call, number: int, result: int) -> None:
    call.ended, call.went_well = number, result >= 0


class RecordedFile(NamedTuple):
    """A file of a replica: its bytes when the record began, and what was asked for it since."""
    path: Path
    before: bytes
    calls: FileCalls


class Recorder:
    """Writes down what the replica of a host is asked for, from now until the host is off. `brick`: where its device is mounted out here."""

    def __init__(self, host: Host, brick: Path):
        self.host, self.brick, self.log = host, brick, host.disk / "record"
        numbers = [number for number, line in host.processes().items() if PROGRAM in line.split()[0]]
        if len(numbers) != 1:
            raise Wrong(f"{host.name} has {len(numbers)} programs of replicas")
        words = ["strace", "-f", "-y", "-xx", "--absolute-timestamps=format:unix,precision:ns", "-s", str(LONGEST), "-e", f"trace={CALLS}",
                 "-e", "signal=none", "-o", str(self.log), "-p", str(numbers[0])]
        self.process = subprocess.Popen(words, stdin=subprocess.DEVNULL, stderr=subprocess.PIPE)
        assert self.process.stderr
        if b"attached" not in self.process.stderr.readline():
            raise Wrong(f"strace does not record the replica of {host.name}")
        # (What was written before is synced; what is written from now on is in the record.)
        run("sync", "--file-system", brick)
        self.before = {path.stat().st_ino: path.read_bytes() for path in plain_files(brick)}
        self.since = time_ns()
        """From when on a write is in these bytes only if the record has it before."""
        self.ahead = self.since - monotonic_ns()
        """By how much the system's time is ahead of the clock of the clients' requests, in nanoseconds."""
        self.files: List[RecordedFile] = []

    def end(self) -> None:
        """Of a host that is off, with its device: reads the record of each file that was there when it began, if something was asked for it."""
        self.process.wait()
        calls: Dict[int, FileCalls] = {}
        for path, file in read_record(self.log.read_text().splitlines()).items():
            out_here = self.brick / path[len(BRICK):]
            # (A file has several names. One that was made since may be lost wholly.)
            if path.startswith(BRICK) and out_here.exists():
                merged = calls.setdefault(out_here.stat().st_ino, FileCalls())
                merged.writes += file.writes
                merged.syncs += file.syncs
        for path in plain_files(self.brick):
            number = path.stat().st_ino
            if number in calls and number in self.before:
                self.files.append(RecordedFile(path, self.before[number], calls[number]))

    def leave(self, dice: random.Random) -> int:
        """Puts into each file what a loss of power may leave of it. How many writes were not synced."""
        count = 0
        for it in self.files:
            disk = it.calls.disk(it.before)
            count += len(disk.unsynced)
            it.path.write_bytes(dice.choice([*plain_images(disk), image(disk, dice), image(disk, dice)]))
        run("sync", "--file-system", self.brick)
        return count

    def leave_old(self) -> None:
        """Puts into each file what it had when the record began, as a device does that lies about syncs."""
        for it in self.files:
            it.path.write_bytes(it.before)
        run("sync", "--file-system", self.brick)


def plain_files(brick: Path) -> Iterator[Path]:
    """The files of a replica that clients see, and none of the engine's own."""
    return (path for path in sorted(brick.glob("b/[!.]*/**/*")) if path.is_file())
