"""The power goes: runs of the server are recorded, and what a cut between their calls may leave is opened and compared.

Used by: scripts/soak, planted_writers.py, failover_parts/cuts.py. SLOTS is the most tenants of a server, `MAX_TENANTS` of
crates/mw_words/src/limits.rt.
"""
import itertools
import random
import shutil
from dataclasses import dataclass, field, replace
from pathlib import Path
from typing import Dict, List, NamedTuple, Optional, Sequence, Tuple, Union

from .checker import Verdict, judge
from .crowd import Crowd, undecided_until, views_of
from .history import NOTHING, UNDECIDED, Epoch, Request
from .layout import read_file
from .recording import Disk, FileLog, cuts, image, plain_images, random_image
from .server import Plan, Programs, Server, Tenant, Wrong, make_files, write_tenants

RECORDED = (Tenant("alone", 2, 1, 1, clients=1), Tenant("pair", 3, 2, 2, clients=2), Tenant("four", 8, 4, 8, clients=4),
            Tenant("crowded", 24, 16, 16, clients=16, most_entries=2))
WORKERS = ["--workers", "32"]
SHORTEST_RECORDING, LONGEST_RECORDING = 0.01, 0.05
SHARE_OF_FAILURES = 0.4
SLOTS = 16
"""How many images a server opens at once: as many as it may have tenants."""


@dataclass
class Told:
    """What was asked of a tenant and told up to some moment, behind which nothing was: `cut` then."""
    first: Tuple[int, ...]
    requests: List[Request]
    cut: int
    judged: Dict[Tuple[int, ...], Verdict] = field(default_factory=dict)

    def verdict(self, tenant: Tenant, words: Tuple[int, ...]) -> Verdict:
        """Whether these words may be found then."""
        if words not in self.judged:
            self.judged[words] = judge(Epoch(tenant.name, self.first, self.requests, words, tenant.quota))
        return self.judged[words]


class Image(NamedTuple):
    """What a power cut may leave of a tenant's file, and what is known of its words: the story until then, or the words
    themselves, where the cut came in an opening of a file that has these."""
    tenant: Tenant
    data: bytes
    known: Union[Told, Tuple[int, ...]]


@dataclass
class Opened:
    """What was tried, and the complaints."""
    complaints: List[str] = field(default_factory=list)
    recordings: int = 0
    failures: int = 0
    moments: int = 0
    moments_tried: int = 0
    images: int = 0
    unfinished: int = 0
    openings_cut: int = 0
    undecided_found: int = 0

    def lines(self) -> List[str]:
        """What to print."""
        return [f"{self.images} images of power cuts in {self.recordings} runs, in {self.failures} of which a call failed: at "
                f"{self.moments_tried} of {self.moments} moments between calls on files all that was not synced lost, and all of it "
                "there; the others torn",
                f"{self.unfinished} with changes to finish, {self.openings_cut} cut off while that was done; in "
                f"{self.undecided_found} changes were found, wholly, that were not answered then"]


def told_until(first: Tuple[int, ...], requests: Sequence[Request], cut: int) -> Told:
    """The story of a tenant as it is known at a moment: what is told later isn't, and what is sent later isn't there."""
    known = []
    for request in (one for one in requests if one.sent < cut):
        if request.told is None or request.told > cut:
            request = replace(request, reply=NOTHING, told=None)
        known.append(replace(request, until=cut) if request.reply.answer in UNDECIDED else request)
    return Told(first, known, cut)


@dataclass
class Moment:
    """A time between two calls on a tenant's file, and the disk then. `requests` are all of the run."""
    tenant: Tenant
    first: Tuple[int, ...]
    requests: Sequence[Request]
    time: int
    disk: Disk
    told: Optional[Told] = None

    def image(self, data: bytes) -> Image:
        """What a cut leaves then, with what is known then."""
        self.told = self.told or told_until(self.first, self.requests, self.time)
        return Image(self.tenant, data, self.told)


def moments_of(tenant: Tenant, durable: bytes, log: FileLog, requests: Sequence[Request]) -> List[Moment]:
    """All moments of a run that began with new files."""
    return [Moment(tenant, (0,) * tenant.words, requests, time, disk) for time, disk in cuts(durable, log)]


def plain_of(moment: Moment) -> List[Image]:
    """What a cut leaves then where all that was not synced is lost, and where all of it is there; one image where that is the
    same."""
    return [moment.image(data) for data in dict.fromkeys(plain_images(moment.disk))]


class Power:
    """Records runs and opens images. With `lie` the runs are on a disk that leaves out all syncs, which has to be found."""

    def __init__(self, programs: Programs, folder: Path, dice: random.Random, lie: bool = False) -> None:
        self.programs, self.folder, self.dice, self.lie = programs, folder, dice, lie
        self.opened = Opened()
        self.rounds = itertools.count(1)

    def run(self, most: int) -> None:
        """Opens so many images: half of them plain ones, of every moment of a few runs, and then torn ones of any of these. It
        ends at the first complaint."""
        moments: List[Moment] = []
        try:
            while 2 * self.opened.images < most and not self.opened.complaints:
                moments += self.try_moments(most)
            while self.opened.images < most and not self.opened.complaints:
                torn = [self.dice.choice(moments) for _ in range(most - self.opened.images)]
                self.open_all([moment.image(random_image(moment.disk, self.dice)) for moment in torn], most)
        except (Wrong, OSError) as wrong:
            self.opened.complaints.append(str(wrong))

    def try_moments(self, most: int) -> List[Moment]:
        """Records a run and opens the plain images of each of its moments, or of as many as there is room for. The moments."""
        moments = self.record()
        images: List[Image] = []
        for moment in self.dice.sample(moments, len(moments)):
            if self.opened.images + len(images) >= most:
                break
            images += plain_of(moment)
            self.opened.moments_tried += 1
        self.opened.moments += len(moments)
        self.open_all(images, most)
        return moments

    def new_folder(self) -> Path:
        """A folder for a next step, beside the earlier ones."""
        folder = self.folder / str(next(self.rounds))
        folder.mkdir()
        return folder

    def record(self) -> List[Moment]:
        """A run of few clients from new files on: its moments."""
        folder = self.new_folder()
        make_files(self.programs, folder, RECORDED)
        durable = {tenant: tenant.path(folder).read_bytes() for tenant in RECORDED}
        failing = [tenant.name for tenant in RECORDED if self.dice.random() < SHARE_OF_FAILURES]
        plan = Plan({name: self.dice.randint(3, 60) for name in failing}, lie=self.lie)
        views = views_of(RECORDED)
        with Server(self.programs, folder, RECORDED, WORKERS, plan) as server:
            server.wait_until_ready()
            crowd = Crowd(server, list(views.values()), self.dice)
            crowd.run(self.dice.uniform(SHORTEST_RECORDING, LONGEST_RECORDING))
        crowd.end()
        self.opened.recordings += 1
        logs = server.records()
        self.opened.failures += any(log.failed_at is not None for log in logs.values())
        moments = []
        for tenant, view in views.items():
            undecided_until(view.requests, server.died)
            moments += moments_of(tenant, durable[tenant], logs.get(tenant.name, FileLog()), view.requests)
        return moments

    def open_all(self, images: List[Image], most: int) -> None:
        """Opens all these images, and some of what a cut in such an opening leaves."""
        waiting = list(images)
        while waiting and not self.opened.complaints and self.opened.images < most:
            now, waiting = waiting[:SLOTS], waiting[SLOTS:]
            waiting += self.open_some(now)

    def open_some(self, images: Sequence[Image]) -> List[Image]:
        """Lets a server open these images and compares the words. Gives images of cuts in these openings."""
        folder = self.new_folder()
        slots = [replace(one.tenant, name=f"slot{k}") for k, one in enumerate(images)]
        for slot, one in zip(slots, images):
            slot.path(folder).write_bytes(one.data)
        write_tenants(folder, slots)
        with Server(self.programs, folder, slots, ["--workers", "4"], Plan({})) as server:
            server.wait_until_ready()
            found = [server.words(slot) for slot in slots]
        logs = server.records()
        again = []
        for slot, one, words in zip(slots, images, found):
            self.compare(one, words, server)
            again += self.cut_opening(one, logs.get(slot.name, FileLog()), words)
        if not self.opened.complaints:
            shutil.rmtree(folder)
        return again

    def compare(self, one: Image, words: Optional[Tuple[int, ...]], server: Server) -> None:
        """Looks at the words that a server found."""
        self.opened.images += 1
        name, told, image_bytes = one.tenant.name, self.opened.complaints, one.data.hex()
        wanted = read_file(one.data).words
        if words is None:
            told.append(f"tenant {name}: an image that did not open: {image_bytes}; {server.notes()}")
        elif words != wanted:
            told.append(f"tenant {name}: words {words} in place of {wanted}: {image_bytes}")
        elif isinstance(one.known, Told):
            verdict = one.known.verdict(one.tenant, words)
            self.opened.undecided_found += verdict.found > 0
            told += [f"{text}\n    found {words}: {image_bytes}" for text in verdict.complaints]
        else:
            self.opened.openings_cut += 1
            if words != one.known:
                told.append(f"tenant {name}: {words} behind a cut in an opening that found {one.known}: {image_bytes}")

    def cut_opening(self, one: Image, log: FileLog, words: Optional[Tuple[int, ...]]) -> List[Image]:
        """One image of a cut in this opening, where it wrote."""
        if len(log.calls) == log.opened:
            return []
        self.opened.unfinished += 1
        if words is None or not isinstance(one.known, Told):
            return []
        _, disk = self.dice.choice(list(cuts(one.data, log)))
        return [Image(one.tenant, image(disk, self.dice), words)]
