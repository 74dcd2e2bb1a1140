"""Lives of a server, one after the other, over the same files: many clients ask, calls on files fail, and each life ends by
SIGKILL and a power cut, of which the records tell what it may leave. All that was told is judged.

Used by: scripts/soak, whose head tells of the tenants and of CLIENTS. POOL (server.py) is MAX_POOL of
crates/mw_words/src/limits.rt: how many changes a server has room for.
"""
import random
import time
from collections import Counter
from dataclasses import dataclass, field
from pathlib import Path
from typing import Counter as CounterOf
from typing import Dict, List, Optional, Set

from .checker import judge, judge_faults
from .crowd import Crowd, Found, undecided_until, views_of
from .history import UNDECIDED, Answer, Epoch, Request
from .layout import SET
from .recording import FileLog, Kind, after_power_cut, calls_behind_a_failure
from .server import POOL, Programs, Server, Tenant, Wrong, make_files, random_plan

TENANTS = (Tenant("narrow", 3, 1, 1), Tenant("busy", 4, 3, 4), Tenant("broad", 8, 8, 8), Tenant("single", 1, 2, 2),
           Tenant("neighbour", 5, 16, 32), Tenant("crowded", 48, 16, 16, clients=16, most_entries=3))
CROWDED = TENANTS[-1]
"""The tenant of many clients, whose changes have few words: many of them are under way at a time, and share syncs."""
CLIENTS = sum(tenant.clients for tenant in TENANTS)
WORKERS = (["--workers", "56"], ["--clients", "56", "--workers", "6"])
"""A worker for each client, or fewer that they share: each life has the one or the other."""
LONGEST_LIFE = 1.5
SHARE_OF_FAILING_FILES = 0.15
SHARE_OF_EARLY_KILLS = 0.1
SHARE_OF_HOLD_UPS = 0.15
SHARE_OF_REPORTS = 0.3
PATIENCE_WITH_SLOTS = 60.0
"""For how many seconds changes may stay under way whose clients have broken off."""


@dataclass
class FoundInLives(Found):
    """What was tried, by the names of `lines`, and the complaints."""
    counts: CounterOf[str] = field(default_factory=Counter)
    most_open: int = 0

    def lines(self, seconds: float, cuts: bool) -> List[str]:
        """What to print."""
        of = self.counts
        ends = f"a kill and a power cut ({of['cut calls']} writes were not synced)" if cuts else "a kill"
        return [f"{seconds:.0f} seconds, {self.lives} lives of the server, each ended by {ends}",
                f"{of['early kills']} killed at their start, {of['hold-ups']} held up, {of['narrow']} on one processor, "
                f"{of['shared']} with fewer workers than clients, {of['reports']} with all slots free at rest",
                f"{self.requests()} requests of {CLIENTS} clients on {len(TENANTS)} tenants: {self.told()}",
                f"{of['calls']} writes and syncs, {of['failing calls']} calls let fail; up to {self.most_open} changes of a tenant "
                "at once durable and not finished",
                f"tenant {CROWDED.name}, {CROWDED.clients} clients: {of['crowded syncs']} syncs of its file, those of openings among "
                f"them, for {of['crowded changes']} changes that were answered YES",
                f"{of['judged']} histories judged: {self.made} changes made, all found; of {of['undecided']} more that had no "
                f"reply, or were under way when a call failed, {of['undecided found']} found, wholly"]


class Lives:
    """The files of some tenants, and what is known of each since its words were last read. With `lie` they are on a disk that
    leaves out all syncs, which has to be found."""

    def __init__(self, programs: Programs, folder: Path, dice: random.Random, lie: bool = False) -> None:
        self.programs, self.folder, self.dice, self.lie = programs, folder, dice, lie
        self.found = FoundInLives()
        self.views = views_of(TENANTS)
        self.epochs = {tenant: Epoch(tenant.name, (0,) * tenant.words, [], quota=tenant.quota) for tenant in TENANTS}
        self.down: List[Tenant] = []
        make_files(programs, folder, TENANTS)

    def run(self, seconds: Optional[float], kills: Optional[int]) -> None:
        """Life after life for so long, or so many of them, whatever time they take; and then one to look at the words. It ends at the first
        complaint."""
        end = time.monotonic() + (seconds or 0)
        while not self.found.complaints and (time.monotonic() < end if kills is None else self.found.lives < kills):
            longest = max(end - time.monotonic(), 0.1) if kills is None else LONGEST_LIFE
            self.live(min(self.dice.uniform(0.0, LONGEST_LIFE), longest))
        if not self.found.complaints:
            self.live(None)

    def live(self, seconds: Optional[float]) -> None:
        """One life of so many seconds; with None one in which nothing fails and nobody asks, to look at the words."""
        plan = random_plan(self.dice, TENANTS, 0.0 if seconds is None else SHARE_OF_FAILING_FILES)
        plan.lie = self.lie
        durable = {tenant: tenant.path(self.folder).read_bytes() for tenant in TENANTS}
        workers = self.dice.choice(WORKERS)
        is_early = seconds is not None and self.dice.random() < SHARE_OF_EARLY_KILLS
        self.found.counts.update({"shared": int("--clients" in workers), "narrow": int(plan.narrow), "early kills": int(is_early)})
        self.down = []
        with Server(self.programs, self.folder, TENANTS, workers, plan) as server:
            try:
                if is_early:
                    time.sleep(self.dice.uniform(0.0, 0.05))
                else:
                    self.serve(server, seconds)
            except (Wrong, OSError) as wrong:
                self.found.complaints.append(str(wrong))
        self.found.lives += 1
        self.look_back(server, durable)

    def serve(self, server: Server, seconds: Optional[float]) -> None:
        """From the server's start to just before its end, and what its clients were told before it."""
        server.wait_until_ready()
        for tenant in TENANTS:
            self.read_words(server, tenant)
        if seconds is None:
            return
        crowd = Crowd(server, list(self.views.values()), self.dice)
        try:
            crowd.run(seconds)
            if self.dice.random() < SHARE_OF_HOLD_UPS:
                self.found.counts["hold-ups"] += 1
                server.hold_up(0.2)
                crowd.run(0.2)
            if self.dice.random() < SHARE_OF_REPORTS:
                crowd.settle()
                self.look_at_slots(server)
        finally:
            server.kill()
            crowd.end()

    def look_at_slots(self, server: Server) -> None:
        """Nobody asks any more: a tenant that is up has no change under way, and all other slots are free."""
        self.found.counts["reports"] += 1
        end = time.monotonic() + PATIENCE_WITH_SLOTS
        while True:
            report = server.report(TENANTS)
            under_way = sum(report.under_way.values())
            if under_way + report.free == POOL and not any(report.under_way[name] for name in report.up):
                return
            if time.monotonic() > end:
                raise Wrong(f"slots are taken though nobody asks: {report}")
            time.sleep(0.01)

    def read_words(self, server: Server, tenant: Tenant) -> None:
        """Reads a tenant's words while nobody else asks, judges what was asked since that was last done, and begins anew."""
        words = server.words(tenant)
        if words is None:
            self.down.append(tenant)
            return
        epoch = self.epochs[tenant]
        epoch.last = words
        verdict = judge(epoch)
        if verdict.complaints:
            self.keep(epoch)
        self.found.complaints += verdict.complaints
        self.found.made += verdict.made - verdict.found
        self.found.counts.update({"judged": 1, "undecided found": verdict.found})
        self.epochs[tenant] = Epoch(tenant.name, words, [], quota=tenant.quota)
        self.views[tenant].words = list(words)

    def keep(self, epoch: Epoch) -> None:
        """Writes down a history in which something is wrong, for whoever looks for the cause."""
        lines = [f"first words {epoch.first}", *(request.text() for request in epoch.requests), f"last words {epoch.last}"]
        (self.folder / f"history-{epoch.tenant}").write_text("\n".join(lines) + "\n")

    def look_back(self, server: Server, durable: Dict[Tenant, bytes]) -> None:
        """Behind a life: what clients were told is kept to be judged, and the power is cut."""
        logs = server.records()
        if self.programs.recorder is not None:
            self.found.complaints += [f"the server said: {note}" for note in server.strange_notes(logs)]
        for tenant, view in self.views.items():
            log = logs.get(tenant.name, FileLog())
            requests, view.requests = view.requests, []
            self.found.answers.update(request.reply.answer for request in requests)
            if self.programs.recorder is not None:
                self.found.complaints += judge_faults(tenant.name, requests, log.failed_at)
                self.look_at_calls(tenant, log)
                tenant.path(self.folder).write_bytes(after_power_cut(durable[tenant], log, self.dice))
            undecided_until(requests, server.died)
            self.found.counts["undecided"] += sum(may_be_found(request, log) for request in requests)
            if tenant is CROWDED:
                self.found.counts["crowded changes"] += sum(it.writes and it.reply.answer is Answer.YES for it in requests)
                self.found.counts["crowded syncs"] += sum(call.kind is Kind.SYNC for call in log.calls)
            self.epochs[tenant].requests += requests

    def look_at_calls(self, tenant: Tenant, log: FileLog) -> None:
        """What is wrong with the calls on a tenant's file, and how many there were."""
        if tenant in self.down and log.failed_at is None:
            self.found.complaints.append(f"tenant {tenant.name}: did not open, though no call on its file has failed")
        if calls_behind_a_failure(log):
            self.found.complaints.append(f"tenant {tenant.name}: calls on its file after one that had failed")
        self.found.counts.update({"calls": len(log.calls), "failing calls": int(log.failed_at is not None), "cut calls": unsynced(log)})
        self.found.most_open = max(self.found.most_open, most_open(log))


def may_be_found(request: Request, log: FileLog) -> bool:
    """Whether it is a change of which nobody knows whether it was made: one without a reply, or one that was answered FAULT
    and had been sent before a call failed."""
    if request.reply.answer is Answer.FAULT:
        return request.writes and log.failed_at is not None and request.sent < log.failed_at
    return request.writes and request.reply.answer in UNDECIDED


def most_open(log: FileLog) -> int:
    """How many records were open at once, at most: their commit bytes, which are written alone, were set."""
    is_open: Set[int] = set()
    most = 0
    for call in log.calls:
        if len(call.data) == 1:
            (is_open.add if call.data[0] == SET else is_open.discard)(call.offset)
            most = max(most, len(is_open))
    return most


def unsynced(log: FileLog) -> int:
    """How many writes came behind the last sync that went well."""
    count = 0
    for call in log.calls:
        count = 0 if call.data == b"" and call.went_well else count + bool(call.data)
    return count
