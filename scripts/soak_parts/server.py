"""The built mwserve over a folder of tenants: started with the recorder or without it, asked for all words, killed.

Used by: scripts/check-backup, scripts/check-files, scripts/soak, backups.py, crowd.py, lives.py, planted.py, planted_writers.py,
power.py, bench_parts/stores.py, failover_parts/cuts.py. It reads the lines of REPORT (docs/PROTOCOL.md) and of standard error
(docs/OPERATING.md), and gives recorder.c its variables: change them together.
"""
import os
import random
import re
import select
import signal
import socket
import subprocess
import time
from dataclasses import dataclass
from pathlib import Path
from typing import Any, Dict, List, NamedTuple, Optional, Sequence, Tuple

from .recording import FileLog, read_log

HOST = "127.0.0.1"
PATIENCE = 60.0
"""For how many seconds an answer, or an opening, is waited for. What needs longer hangs."""
SHARE_OF_NARROW_LIVES = 0.3
POOL = 256
KNOWN_NOTES = ("failed", "disk")
"""What is said of a tenant where a call on its file fails."""


class Wrong(Exception):
    """The server did what it should never do, and the run can't go on."""


@dataclass(frozen=True)
class Tenant:
    """A tenant: its name, and how many words, changes under way and record places it has; how many clients, and how many
    entries a change of theirs has at most."""
    name: str
    words: int
    quota: int
    places: int
    clients: int = 5
    most_entries: int = 16

    def path(self, folder: Path) -> Path:
        """Its file."""
        return folder / f"{self.name}.mw"


@dataclass(frozen=True)
class Programs:
    """The built programs, and the recorder where there is one."""
    mwinit: Path
    mwserve: Path
    recorder: Optional[Path]


class Report(NamedTuple):
    """Of each tenant how many changes are under way; who is up; and how many slots are free."""
    under_way: Dict[str, int]
    up: List[str]
    free: int


@dataclass
class Plan:
    """What is to happen to a server: for each tenant the number of the call that fails, how long a sync takes at most, in
    microseconds; whether it has one processor alone, so that its threads are stopped anywhere; whether its syncs lie."""
    fail_at: Dict[str, int]
    pause: int = 300
    narrow: bool = False
    lie: bool = False


def built(script: str, folder: Path, name: str, how: str) -> Path:
    """A built program, in the folder itself or where the repository has it. `how`: what builds it."""
    for path in (folder / name, folder / "crates" / name / "out" / name):
        if path.is_file() and os.access(path, os.X_OK):
            return path.resolve()
    raise SystemExit(f"{script}: {name} is not built: run {how} first, or name a folder by --programs")


def make_files(programs: Programs, folder: Path, tenants: Sequence[Tenant]) -> None:
    """New files of these tenants, and their tenants file."""
    for tenant in tenants:
        subprocess.run([programs.mwinit, f"{tenant.name}.mw", str(tenant.words), str(tenant.places)], cwd=folder, check=True,
                       stdout=subprocess.DEVNULL)
    write_tenants(folder, tenants)


def write_tenants(folder: Path, tenants: Sequence[Tenant]) -> None:
    """The tenants file of these tenants."""
    (folder / "tenants").write_text("".join(f"{it.name} {it.words} {it.quota} {it.name}.mw\n" for it in tenants))


class Server:
    """One life of a server, from its start to its end; as a context it ends with it. `workers` are its options on workers. `died` is when
    it had ended; 0 before."""
    patience = PATIENCE

    def __init__(self, programs: Programs, folder: Path, tenants: Sequence[Tenant], workers: Sequence[str], plan: Plan) -> None:
        self.folder = folder
        self.log = folder / "records"
        self.log.unlink(missing_ok=True)
        self.died = self.port = 0
        with open(folder / "notes", "wb") as notes:
            self.process = subprocess.Popen(
                [programs.mwserve, "--tenants", "tenants", *workers, "--listen", f"{HOST}:0"], cwd=folder,
                env=self.environment(programs, tenants, plan), stdin=subprocess.DEVNULL, stdout=subprocess.PIPE, stderr=notes)
        if plan.narrow:
            os.sched_setaffinity(self.process.pid, {min(os.sched_getaffinity(0))})

    def wait_until_ready(self) -> None:
        """Until it listens; Wrong where it doesn't, or needs too long."""
        said = self.first_line()
        if not said.startswith("ready ") or not said.endswith("\n"):
            raise Wrong(f"the server did not start within {self.patience:.0f} seconds: {said!r}, {self.notes()}")
        self.port = int(said[len("ready "):])

    def first_line(self) -> str:
        """What it says first, with the line feed at its end; the part that came where it ends or is silent for too long."""
        said, end = b"", time.monotonic() + self.patience
        while not said.endswith(b"\n"):
            has_come, _, _ = select.select([self.process.stdout], [], [], max(0.0, end - time.monotonic()))
            piece = os.read(self.process.stdout.fileno(), 4096) if has_come else b""
            if not piece:
                break
            said += piece
        return said.decode()

    def environment(self, programs: Programs, tenants: Sequence[Tenant], plan: Plan) -> Dict[str, str]:
        """Its environment: with the recorder, if there is one."""
        if programs.recorder is None:
            return dict(os.environ)
        files = ",".join(f"{tenant.name}:{plan.fail_at.get(tenant.name, 0)}" for tenant in tenants)
        return {**os.environ, "LD_PRELOAD": str(programs.recorder), "RECORDER_LOG": str(self.log), "RECORDER_FILES": files,
                "RECORDER_PAUSE": str(plan.pause), "RECORDER_LIE": "1" if plan.lie else "0"}

    def notes(self) -> List[str]:
        """What it said on standard error."""
        return (self.folder / "notes").read_text().splitlines()

    def check_alive(self) -> None:
        """Wrong where it has ended by itself."""
        if self.process.poll() is not None:
            raise Wrong(f"the server ended by itself, status {self.process.returncode}: {self.notes()}")

    def kill(self) -> None:
        """Ends it, by SIGKILL, if it wasn't ended so before."""
        if not self.died:
            self.process.kill()
            self.process.wait()
            self.process.stdout.close()
            self.died = time.monotonic_ns()

    def __enter__(self) -> Any:
        return self

    def __exit__(self, *_: object) -> None:
        self.kill()

    def hold_up(self, seconds: float) -> None:
        """Stops it for a while: all of its threads stand where they are."""
        self.process.send_signal(signal.SIGSTOP)
        time.sleep(seconds)
        self.process.send_signal(signal.SIGCONT)

    def records(self) -> Dict[str, FileLog]:
        """The calls that it made on tenants' files; of a server without the recorder none."""
        return read_log(self.log)

    def strange_notes(self, logs: Dict[str, FileLog]) -> List[str]:
        """What it said that it had no cause for."""
        failed = {name for name, log in logs.items() if log.failed_at is not None}
        known = {f"tenant {name}: {note}" for name in failed for note in KNOWN_NOTES}
        whys = re.compile(f"({'|'.join(failed)})[.]mw: .+ [(]os error [0-9]+[)]|mwserve: [0-9]+ of [0-9]+ tenants down")
        return [note for note in self.notes() if note not in known and not (failed and whys.fullmatch(note))]

    def words(self, tenant: Tenant) -> Optional[Tuple[int, ...]]:
        """All words of a tenant, one read after the other; None where it answers FAULT."""
        lines = [f"TENANT {tenant.name}", *(f"GET {address}" for address in range(tenant.words)), "QUIT"]
        said = self.ask("".join(line + "\n" for line in lines)).splitlines()
        if said[:1] == [f"OK {tenant.words}"] and said[-1] == "BYE" and len(said) == len(lines):
            if all(line.startswith("VAL ") for line in said[1:-1]):
                return tuple(int(line[len("VAL "):]) for line in said[1:-1])
            if set(said[1:-1]) == {"FAULT"}:
                return None
        raise Wrong(f"tenant {tenant.name}: asked for its words the server says {said}")

    def report(self, tenants: Sequence[Tenant]) -> Report:
        """How many slots are taken, as an administrator is told; Wrong where the report doesn't fit these tenants."""
        greeting, *lines, free, goodbye = self.ask("ADMIN\nREPORT\nQUIT\n").splitlines()
        told = [(line[:16].rstrip(), int(line[17:21]), int(line[22:24])) for line in lines]
        # An opened file has twice the places that it was made with; of one that didn't open 0 are told.
        fits = told == [(tenant.name, tenant.words, tenant.quota) for tenant in tenants] and \
            all(int(line[25:27]) in (0, 2 * tenant.places) for line, tenant in zip(lines, tenants))
        if greeting != "OK ADMIN" or not fits or free[:5] != "free " or goodbye != "BYE":
            raise Wrong(f"a report that doesn't fit: {[greeting, *lines, free, goodbye]}")
        under_way = {tenant.name: int(line[28:30]) for line, tenant in zip(lines, tenants)}
        return Report(under_way, [tenant.name for line, tenant in zip(lines, tenants) if line[31:] == "up"], int(free[5:]))

    def ask(self, lines: str) -> str:
        """What a session of these lines is told."""
        with socket.create_connection((HOST, self.port), PATIENCE) as client:
            client.sendall(lines.encode())
            client.shutdown(socket.SHUT_WR)
            return b"".join(iter(lambda: client.recv(4096), b"")).decode()


def random_plan(dice: random.Random, tenants: Sequence[Tenant], share: float) -> Plan:
    """Lets some tenants' files fail: most at a call of a change, some at the opening."""
    fail_at = {tenant.name: dice.randint(1, 4) if dice.random() < 0.15 else dice.randint(3, 120)
               for tenant in tenants if dice.random() < share}
    return Plan(fail_at, pause=dice.choice((0, 50, 300, 2000)), narrow=dice.random() < SHARE_OF_NARROW_LIVES)
