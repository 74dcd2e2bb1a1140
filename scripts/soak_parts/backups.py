"""Backups over HTTP, taken while many clients change the words: each is a file that opens with the words of one moment.

The checker judges a backup as a request that sees all words of its tenant at once: it has a place in the serial order, between
the moment at which it was asked for and that at which it had come.

Used by: scripts/check-backup.
"""
import random
import subprocess
import threading
import time
from dataclasses import dataclass
from pathlib import Path
from typing import Dict, Iterable, List, NamedTuple, Sequence, Tuple

from http_parts import server as pages

from .checker import judge
from .crowd import Crowd, Found, undecided_until, views_of
from .history import Answer, Entry, Epoch, Reply, Request
from .server import Plan, Programs, Server, Tenant, Wrong, make_files

TENANTS = (Tenant("narrow", 3, 1, 1), Tenant("busy", 4, 3, 4), Tenant("broad", 8, 8, 8),
           Tenant("crowded", 48, 16, 16, clients=16, most_entries=3), Tenant("largest", 4096, 32, 32, clients=8))
CLIENTS = sum(tenant.clients for tenant in TENANTS)
OPTIONS = (["--workers", "56"], ["--clients", "56", "--workers", "6"])
"""A worker for each client, or fewer that they share."""
A_LIFE = 50
"""How many backups are taken in one life of the server, at most."""
MOST_CALLS = 40
"""More calls than an opening and a copy make on a file."""
Words = Tuple[int, ...]


class PagedServer(Server):
    """One life of a server that shows its pages at the local socket `pages`."""

    def __init__(self, programs: Programs, folder: Path, tenants: Sequence[Tenant], options: Sequence[str], plan: Plan) -> None:
        super().__init__(programs, folder, tenants, [*options, "--http", "unix:pages"], plan)
        self.pages = folder / "pages"

    def first_line(self) -> str:
        """What it says first, behind where its pages are, which it says before."""
        said = super().first_line()
        if said == "http unix:pages\n":
            said = super().first_line()
        return said.removeprefix("http unix:pages\n")

    def copy(self, tenant: Tenant) -> pages.Answer:
        """What is answered to whoever asks for a tenant's file."""
        return pages.get(self.pages, f"/tenants/{tenant.name}/file")

    def words_of(self, tenants: Iterable[Tenant]) -> Dict[Tenant, Words]:
        """All words of tenants that are up, once it listens."""
        self.wait_until_ready()
        found = {tenant: self.words(tenant) for tenant in tenants}
        for tenant, words in found.items():
            if words is None:
                raise Wrong(f"tenant {tenant.name} did not open")
        return found


class Backup(NamedTuple):
    """A tenant's file as it came, and when it was asked for and had come."""
    tenant: Tenant
    sent: int
    told: int
    file: bytes

    def seen(self, session: int, words: Words) -> Request:
        """As the checker judges it: a change that only compares all words, and was answered YES."""
        entries = tuple(Entry(address, word, word) for address, word in enumerate(words))
        return Request(session, self.sent, entries=entries, until=self.told, told=self.told, reply=Reply(Answer.YES))


@dataclass
class FoundInBackups(Found):
    """What was tried, and the complaints."""
    backups: int = 0
    in_midst: int = 0
    longest: int = 0

    def lines(self, seconds: float) -> List[str]:
        """What to print."""
        return [f"{seconds:.0f} seconds, {self.lives} lives of the server; {self.backups} backups of {len(TENANTS)} tenants, each opened, "
                f"the slowest after {self.longest / 1e6:.0f} ms",
                f"{self.requests()} requests of {CLIENTS} clients meanwhile: {self.told()}; {self.made} changes were made",
                f"{self.in_midst} backups have words that no read at rest had: they were taken in the midst of changes"]


class Backups:
    """The files of some tenants, of which backups are taken while clients change their words."""

    def __init__(self, programs: Programs, mwshow: Path, folder: Path, dice: random.Random) -> None:
        self.programs, self.mwshow, self.folder, self.dice = programs, mwshow, folder, dice
        self.found = FoundInBackups()
        self.views = views_of(TENANTS)
        self.last: Dict[Tenant, Tuple[bytes, Words]] = {}
        make_files(programs, folder, TENANTS)

    def run(self, count: int) -> None:
        """So many backups, in some lives of a server. It ends at the first complaint."""
        try:
            while count > 0 and not self.found.complaints:
                self.live(min(count, A_LIFE))
                count -= A_LIFE
            if not self.found.complaints:
                self.restore()
        except (Wrong, pages.Wrong, OSError) as wrong:
            self.found.complaints.append(str(wrong))

    def server(self, options: Sequence[str]) -> PagedServer:
        """One life of a server over all files."""
        return PagedServer(self.programs, self.folder, TENANTS, options, Plan({}))

    def words_of(self, tenants: Iterable[Tenant]) -> Dict[Tenant, Words]:
        """The words that a server tells which is started for that alone."""
        with self.server(OPTIONS[0]) as server:
            return server.words_of(tenants)

    def live(self, count: int) -> None:
        """One life, in which clients change words while so many backups are taken, and what is wrong with what was told."""
        backups: List[Backup] = []
        with self.server(self.dice.choice(OPTIONS)) as server:
            first = server.words_of(TENANTS)
            for tenant, words in first.items():
                self.views[tenant].words = list(words)
            self.take(server, count, backups)
        last = self.words_of(TENANTS)
        self.found.lives += 1
        for tenant, view in self.views.items():
            undecided_until(view.requests, server.died)
            epoch = Epoch(tenant.name, first[tenant], view.requests, last[tenant], tenant.quota)
            view.requests = []
            self.look_at(epoch, [backup for backup in backups if backup.tenant is tenant])

    def take(self, server: PagedServer, count: int, backups: List[Backup]) -> None:
        """Takes so many backups by one client, one after the other, while the others change words."""
        wrong: List[Exception] = []

        def copy() -> None:
            try:
                for _ in range(count):
                    backups.append(self.one(server))
            except (Wrong, pages.Wrong, OSError) as error:
                wrong.append(error)

        crowd = Crowd(server, list(self.views.values()), random.Random(self.dice.random()))
        taker = threading.Thread(target=copy)
        taker.start()
        try:
            while taker.is_alive():
                crowd.run(0.05)
        finally:
            taker.join()
            server.kill()
            crowd.end()
        if wrong:
            raise wrong[0]

    def one(self, server: PagedServer) -> Backup:
        """A backup of some tenant."""
        tenant = self.dice.choice(TENANTS)
        sent = time.monotonic_ns()
        answer = server.copy(tenant)
        told = time.monotonic_ns()
        pages.same((answer.status, answer.fields["Content-Type"]), (200, "application/octet-stream"), f"the file of {tenant.name}")
        self.found.longest = max(self.found.longest, told - sent)
        return Backup(tenant, sent, told, answer.body)

    def look_at(self, epoch: Epoch, backups: List[Backup]) -> None:
        """What is wrong with a tenant's replies and backups of one life."""
        self.found.answers.update(request.reply.answer for request in epoch.requests)
        for number, backup in enumerate(backups, 1):
            words = self.opened(backup)
            self.found.backups += 1
            self.found.in_midst += words not in (epoch.first, epoch.last)
            self.last[backup.tenant] = backup.file, words
            epoch.requests.append(backup.seen(-number, words))
        verdict = judge(epoch)
        self.found.made += verdict.made
        self.found.complaints += verdict.complaints

    def opened(self, backup: Backup) -> Words:
        """The words of a backup, as mwshow tells them; Wrong if it opens with damage."""
        path = self.folder / "backup.mw"
        path.write_bytes(backup.file)
        told = subprocess.run([self.mwshow, "--words", path], capture_output=True, text=True)
        lines = [line.split() for line in told.stdout.splitlines()]
        words = tuple(int(line[2]) for line in lines if line[0] == "word")
        if told.returncode or told.stderr or len(words) != backup.tenant.words:
            raise Wrong(f"a backup of {backup.tenant.name}, {len(backup.file)} bytes: status {told.returncode}, {told.stderr!r}")
        return words

    def restore(self) -> None:
        """Puts the last backup of each tenant in its file's place: a server opens it with the words that the backup has."""
        for tenant, (file, _) in self.last.items():
            tenant.path(self.folder).write_bytes(file)
        found = self.words_of(self.last)
        self.found.complaints += [f"tenant {tenant.name}: a restored backup has other words than mwshow told"
                                  for tenant, (_, words) in self.last.items() if found[tenant] != words]


def failing_reads(programs: Programs, folder: Path) -> str:
    """A device that fails while a file is copied: 500, and the tenant goes on. What was tried."""
    tenant = TENANTS[0]
    make_files(programs, folder, [tenant])
    for number in range(MOST_CALLS):  # at 0 no call fails, and the file is made longer
        with PagedServer(programs, folder, [tenant], OPTIONS[0], Plan({tenant.name: number})) as server:
            server.wait_until_ready()
            if server.words(tenant) is None:
                pages.same(server.copy(tenant).status, 503, "the file of a tenant that didn't open")
                continue
            first = server.copy(tenant)
            if first.status == 200:
                continue
            pages.same((first.status, first.body), (500, b""), "the file, if its read fails")
            pages.same(server.copy(tenant).status, 200, "the file, asked for anew")
            said = server.ask(f"TENANT {tenant.name}\nCAS 0:0:1\nQUIT\n").splitlines()
            pages.same(said[1], "YES", "a change after a copy that failed")
            return f"a read that fails in a copy, call {number} on the file: 500, and the tenant goes on; 503 of a file that didn't open"
    raise Wrong("no call on a file failed in a copy of it")
