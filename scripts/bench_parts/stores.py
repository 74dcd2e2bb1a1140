"""The servers that scripts/bench-server times: an mwserve over new files, and other stores; and the rows that it prints.

Used by: scripts/bench-server; one_tenant.py; program_parts/beside.py, which takes the first NAME signs of a row as its name. A further
store needs its clients in clients.py, and a case in scripts/bench-server and in one_tenant.py. docs/BENCH.md says what each store
promises. MOST_PLACES is FIRST_PLACES of crates/mw_record/src/layout.rt.
"""
import os
import re
import shutil
import signal
import socket
import subprocess
import tempfile
import time
from pathlib import Path

from soak_parts.server import Plan, Programs, Tenant, Wrong, make_files
from soak_parts.server import Server as AnyServer

from .clients import HOST, WORDS, together, wrong

PARTS = Path(__file__).resolve().parent
TOP = PARTS.parent.parent
MWINIT = TOP / "crates/mwinit/out/mwinit"
TENANTS = 16
QUOTA = 8
# The most places that a new file may have.
MOST_PLACES = 32


def mwinit_of(program):
    """The mwinit that makes files for an mwserve."""
    beside = program.with_name("mwinit")
    return beside if beside.exists() else MWINIT


class Server(AnyServer):
    """An mwserve over new files in a folder, sixteen if not said. `environment` is put over its own."""
    patience = 600

    def __init__(self, program, folder, workers=40, tenants=TENANTS, quota=QUOTA, environment=None):
        self.put_over = environment or {}
        stores = [Tenant(f"t{number}", WORDS, quota, min(quota, MOST_PLACES)) for number in range(tenants)]
        programs, room = Programs(mwinit_of(program), program, None), Path(tempfile.mkdtemp(dir=folder))
        make_files(programs, room, stores)
        super().__init__(programs, room, stores, ["--workers", str(workers)], Plan({}))
        try:
            self.wait_until_ready()
        except Wrong as error:
            self.kill()
            wrong(str(error))

    def environment(self, *_):
        return {**os.environ, **self.put_over}

    def processor_time(self):
        """The seconds that the server's threads have had, theirs and the system's for them."""
        fields = Path(f"/proc/{self.process.pid}/stat").read_text().rpartition(")")[2].split()
        return (int(fields[11]) + int(fields[12])) / os.sysconf("SC_CLK_TCK")

    def waiting_time(self):
        """The seconds for which the server's threads could have run and had no processor; None where they aren't counted."""
        try:
            told = [(it / "schedstat").read_text() for it in self.threads()]
        except OSError:
            return None
        return sum(int(it.split()[1]) for it in told) / 1e9

    def threads(self):
        return list(Path(f"/proc/{self.process.pid}/task").iterdir())

    def run_on(self, processors):
        """From here on its threads run on these alone."""
        for it in self.threads():
            os.sched_setaffinity(int(it.name), processors)

    def memory(self):
        """The kilobytes that it has in memory."""
        return int(re.search(r"VmRSS:\s*(\d+)", Path(f"/proc/{self.process.pid}/status").read_text())[1])

    def calls(self, seconds, *whats):
        """The system calls of the server a request, if they can be counted."""
        if not shutil.which("strace"):
            return None
        told = self.folder / "calls"
        words = ["strace", "-f", "-c", "-qq", "-o", told, "-p", str(self.process.pid)]
        tracer = subprocess.Popen(words, stderr=subprocess.DEVNULL)
        time.sleep(1)
        took = together(seconds, *whats)
        tracer.send_signal(signal.SIGINT)
        tracer.wait()
        text = told.read_text() if told.exists() else ""
        counts = [line.split()[3] for line in text.splitlines() if line.rstrip().endswith("total")]
        return int(counts[0]) / sum(map(len, took.values())) if counts else None

    def __exit__(self, *_):
        super().__exit__()
        shutil.rmtree(self.folder)


def redis_words(room, port):
    """The command of a Redis that syncs its log before each reply."""
    return ["redis-server", "--port", str(port), "--dir", str(room), "--appendonly", "yes", "--appendfsync", "always", "--save", ""]


def etcd_words(room, port):
    """The command of an etcd alone."""
    at, peer = f"http://{HOST}:{port}", f"http://{HOST}:{free_port()}"
    return ["etcd", "--data-dir", str(room / "etcd"), "--listen-client-urls", at, "--advertise-client-urls", at,
            "--listen-peer-urls", peer, "--initial-advertise-peer-urls", peer, "--initial-cluster", f"default={peer}"]


def free_port():
    with socket.socket() as it:
        it.bind((HOST, 0))
        return it.getsockname()[1]


class Other:
    """Another store's server, from when it takes connections."""

    def __init__(self, words, port, environment=None):
        environment = {**os.environ, **(environment or {})}
        self.process = subprocess.Popen(words, stdout=subprocess.DEVNULL, stderr=subprocess.DEVNULL, env=environment)
        for _ in range(100):
            time.sleep(0.1)
            try:
                socket.create_connection((HOST, port)).close()
                time.sleep(1)
                return
            except OSError:
                pass
        wrong(f"{words[0]} takes no connections")

    def __enter__(self):
        return self

    def __exit__(self, *_):
        self.process.kill()
        self.process.wait()


def compiled(folder, part, *flags):
    """A part of this script in C, compiled in a folder."""
    built = Path(folder, part)
    subprocess.run(["cc", "-O2", *flags, "-o", built, PARTS / f"{part}.c"], check=True)
    return built


NAME = 58
"""How wide the name of a row is."""


def row(name, *figures):
    print(f"{name:<{NAME}}" + "".join(f"{it:>14}" for it in figures), flush=True)


def number(it, digits=0):
    return "-" if it is None else f"{it:.{digits}f}"
