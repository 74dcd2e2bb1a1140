"""Tries the checker: histories in which all is right, and such with a planted fault, each of which it has to refuse. Of those in which
BUSY comes with a slot free it has to refuse some.

Used by: scripts/soak --self-test. A condition that checker.py gains has a fault here; slots.py has the rule of BUSY.
"""
import heapq
import itertools
import random
from typing import Dict, List, NamedTuple, Optional, Set, Tuple

from .checker import judge, judge_faults
from .crowd import View
from .history import NOTHING, Answer, Entry, Epoch, Reply, Request, reply_of
from .server import Tenant

MICROSECOND = 1000


class Case(NamedTuple):
    """A history by hand. Of each line: session, when it was sent, when it was over, what was asked, what was told; `-` where
    no reply came. `fault` is a part of the complaint that has to come; None where there may be none. `quota` is the tenant's."""
    name: str
    first: Tuple[int, ...]
    lines: str
    last: Optional[Tuple[int, ...]]
    fault: Optional[str] = None
    quota: int = 1


NO_ORDER = "no serial order"
BUSY_THOUGH = "BUSY though"
CASES = (
    Case("nothing at all", (0, 0), "", (0, 0)),
    Case("a change and a read behind it", (0,), "1 0 5 CAS 0:0:1 = YES; 1 6 9 GET 0 = VAL 1", (1,)),
    Case("reads on both sides of a change under way", (0,), "1 0 9 CAS 0:0:1 = YES; 2 1 2 GET 0 = VAL 0; 3 3 4 GET 0 = VAL 1", (1,)),
    Case("an unanswered change that is found", (0, 0), "1 0 9 CAS 0:0:1 1:0:2 = -", (1, 2)),
    Case("an unanswered change that isn't found", (0, 0), "1 0 9 CAS 0:0:1 1:0:2 = -", (0, 0)),
    Case("an unanswered change that a later one continues", (0,), "1 0 9 CAS 0:0:1 = -; 2 3 4 CAS 0:1:2 = YES", (2,)),
    Case("one of two that are answered FAULT is found", (0, 0), "1 0 9 CAS 0:0:1 = FAULT; 2 0 9 CAS 1:0:2 = FAULT", (1, 0)),
    Case("changes that only compare", (3, 4), "1 0 5 CAS 0:3:3 1:4:4 = YES; 2 1 3 CAS 0:3:9 = YES", (9, 4)),
    Case("a refusal on the way", (0, 0), "1 0 9 CAS 0:0:1 1:0:2 = YES; 2 1 8 CAS 0:7:8 1:0:9 = NO 0 0", (1, 2)),
    Case("busy beside another", (0,), "1 0 9 CAS 0:0:1 = YES; 2 1 2 CAS 0:0:5 = BUSY", (1,)),
    Case("busy beside as many as the quota", (0, 0),
         "1 0 9 CAS 0:0:1 = YES; 2 0 9 CAS 1:0:2 = YES; 3 1 2 CAS 0:0:5 = BUSY", (1, 2), quota=2),
    Case("busy beside a read that looks at a change behind its answer", (0,),
         "1 0 2 CAS 0:0:1 = YES; 2 1 9 GET 0 = VAL 0; 3 4 5 CAS 0:1:5 = BUSY", (1,)),
    Case("busy beside a read that met such a read", (0,),
         "1 0 2 CAS 0:0:1 = YES; 2 1 6 GET 0 = VAL 0; 4 5 20 GET 0 = VAL 1; 3 8 9 CAS 0:1:5 = BUSY", (1,)),
    Case("busy beside a change that turns from one to another behind their answers", (0, 0, 0),
         "1 0 3 CAS 0:0:1 = YES; 2 0 3 CAS 1:0:2 = YES; 3 1 20 CAS 2:0:3 = YES; 4 10 11 CAS 0:1:5 = BUSY", (1, 2, 3), quota=3),
    Case("busy beside a change whose client has broken off", (0,), "1 0 50 CAS 0:0:1 = -; 2 10 11 CAS 0:0:5 = BUSY", (0,)),
    Case("sessions in order", (0,), "1 0 9 CAS 0:0:1 = YES; 1 0 9 GET 0 = VAL 1; 1 0 9 CAS 0:1:2 = -", (2,)),
    Case("a lost YES", (0,), "1 0 5 CAS 0:0:1 = YES", (0,), NO_ORDER),
    Case("a lost YES among others", (0, 0),
         "1 0 5 CAS 0:0:1 = YES; 2 6 7 CAS 1:0:2 = YES; 2 8 9 CAS 0:0:3 = YES", (3, 2), "two changes were made"),
    Case("a torn change that was answered YES", (0, 0), "1 0 5 CAS 0:0:1 1:0:2 = YES", (1, 0), NO_ORDER),
    Case("a torn change without a reply", (0, 0), "1 0 5 CAS 0:0:1 1:0:2 = -", (0, 2), NO_ORDER),
    Case("a torn change answered FAULT", (0, 0), "1 0 5 CAS 0:0:1 1:0:2 = FAULT", (0, 2), NO_ORDER),
    Case("a torn change that two reads see", (0, 0),
         "1 0 9 CAS 0:0:1 1:0:2 = YES; 2 1 2 GET 1 = VAL 2; 2 3 4 GET 0 = VAL 0", (1, 2), NO_ORDER),
    Case("a stale VAL", (0,), "1 0 5 CAS 0:0:1 = YES; 2 6 7 GET 0 = VAL 0", (1,), NO_ORDER),
    Case("a stale VAL between two reads", (0,), "1 0 9 CAS 0:0:1 = YES; 2 1 2 GET 0 = VAL 1; 2 3 4 GET 0 = VAL 0", (1,), NO_ORDER),
    Case("a VAL of nobody's value", (0,), "1 0 5 GET 0 = VAL 7", (0,), "nobody wrote 7"),
    Case("a VAL of a change to come", (0,), "1 0 2 GET 0 = VAL 1; 2 3 5 CAS 0:0:1 = YES", (1,), NO_ORDER),
    Case("a NO with a value that the word has no more", (0,),
         "1 0 2 CAS 0:0:1 = YES; 2 3 4 CAS 0:1:2 = YES; 1 5 6 CAS 0:2:3 = NO 0 1", (2,), NO_ORDER),
    Case("a NO with the value that was expected", (0,), "1 0 2 CAS 0:0:1 = NO 0 0", (0,), "can't have"),
    Case("a NO of another address", (0, 0), "1 0 2 CAS 0:5:6 = NO 1 0", (0, 0), "can't have"),
    Case("a refused change that is found", (0, 4), "1 0 2 CAS 0:0:1 1:5:6 = NO 1 4", (1, 4), "refused"),
    Case("a YES that could not be", (0, 0), "1 0 2 CAS 0:0:1 = YES; 2 3 4 CAS 1:0:3 0:0:0 = YES", (1, 3), NO_ORDER),
    Case("words of two moments compared", (0, 0),
         "1 0 9 CAS 0:0:1 = YES; 1 10 20 CAS 1:0:2 = YES; 2 0 30 CAS 0:0:0 1:2:2 = YES", (1, 2), NO_ORDER),
    Case("two changes each before the other", (0, 0), "1 0 9 CAS 0:0:1 1:4:4 = YES; 2 0 9 CAS 1:0:4 0:1:1 = YES", (1, 4), NO_ORDER),
    Case("two changes from one value", (0,), "1 0 9 CAS 0:0:1 = YES; 2 0 9 CAS 0:0:2 = YES", (2,), "two changes were made"),
    Case("two that were answered FAULT and are found", (0, 0),
         "1 0 9 CAS 0:0:1 = FAULT; 2 0 9 CAS 1:0:2 = FAULT", (1, 2), "more than one"),
    Case("a session out of order", (0,), "1 0 9 GET 0 = VAL 1; 1 0 9 CAS 0:0:1 = YES", (1,), NO_ORDER),
    Case("an unanswered change that comes when its server has ended", (0,), "1 0 5 CAS 0:0:1 = -; 2 6 7 GET 0 = VAL 0", (1,), NO_ORDER),
    Case("busy alone", (0,), "1 0 2 CAS 0:0:1 = YES; 2 3 4 CAS 0:1:5 = BUSY", (1,), BUSY_THOUGH),
    Case("busy beside one other, where two may be under way", (0,),
         "1 0 9 CAS 0:0:1 = YES; 2 1 2 CAS 0:0:5 = BUSY", (1,), BUSY_THOUGH, quota=2),
    Case("busy beside two, one behind the other, where two may be under way", (0,),
         "1 0 3 CAS 0:0:1 = YES; 2 1 9 CAS 0:0:5 = BUSY; 1 5 8 CAS 0:1:2 = YES", (2,), BUSY_THOUGH, quota=2),
    Case("busy beside its own session alone", (0,), "1 0 9 CAS 0:0:1 = YES; 1 0 9 CAS 0:1:5 = BUSY", (1,), BUSY_THOUGH),
    Case("busy beside another that is busy", (0,), "1 0 9 CAS 0:0:1 = BUSY; 2 0 9 CAS 0:0:2 = BUSY", (0,), BUSY_THOUGH),
    Case("busy beside a read that came when all was over", (0,),
         "1 0 2 CAS 0:0:1 = YES; 2 4 9 GET 0 = VAL 1; 3 5 6 CAS 0:1:5 = BUSY", (1,), BUSY_THOUGH),
    Case("busy beside a read, which holds one slot and not two", (0, 0),
         "1 0 3 CAS 0:0:1 = YES; 2 0 4 CAS 1:0:2 = YES; 3 1 20 GET 0 = VAL 0; 4 10 11 CAS 0:1:5 = BUSY", (1, 2), BUSY_THOUGH, quota=2),
    Case("busy beside a change, which holds three slots and not four", (0, 0, 0, 0),
         "1 0 3 CAS 0:0:1 = YES; 2 0 3 CAS 1:0:2 = YES; 3 0 3 CAS 2:0:3 = YES; 4 1 20 CAS 3:0:4 = YES; 5 10 11 CAS 0:1:5 = BUSY",
         (1, 2, 3, 4), BUSY_THOUGH, quota=4),
    Case("busy when the server of the other has ended", (0,), "1 0 5 CAS 0:0:1 = -; 2 6 7 CAS 0:0:5 = BUSY", (1,), BUSY_THOUGH),
    Case("a read that is busy", (0,), "1 0 9 CAS 0:0:1 = YES; 2 3 4 GET 0 = BUSY", (1,), "can't have"),
    Case("worn", (0,), "1 0 9 CAS 0:0:1 = WORN", (0,), "WORN"),
)
FAULT_CASES = (
    Case("a FAULT where a call failed", (), "1 0 5 CAS 0:0:1 = FAULT; 1 6 7 GET 0 = FAULT; 2 8 9 CAS 0:0:2 = FAULT", None),
    Case("a FAULT too early", (), "1 0 2 CAS 0:0:1 = FAULT", None, "no call on its file has failed"),
    Case("a NO behind a FAULT", (), "1 0 5 CAS 0:0:1 = FAULT; 2 6 7 CAS 0:4:2 = NO 0 0", None, "behind a FAULT"),
)
FAILED_AT = 3
FIRST = (1, 2, 3, 4)
SESSIONS, REQUESTS = 8, 200
MOST_QUOTA = 4
SHARE_OF_PINS = 0.7
SHARE_OF_LOST = 0.05
TRICKS, BUSY_EARLY = ("a lost YES", "a torn change", "a stale VAL"), "BUSY with a slot free"
SERVE, PIN, LEAVE, READ = range(4)
"""What comes of a request: it is served, pins others' slots, lets go of all, and its client reads the reply."""


def read_requests(lines: str) -> List[Request]:
    """All requests of a case."""
    requests = []
    for line in filter(None, lines.split("; ")):
        asked, _, told = line.partition(" = ")
        session, sent, until, command, *rest = asked.split()
        request = Request(int(session), MICROSECOND * int(sent), until=MICROSECOND * int(until))
        if told != "-":
            request.reply, request.told = reply_of(told), request.until
        if command == "GET":
            request.address = int(rest[0])
        else:
            request.entries = tuple(Entry(*map(int, entry.split(":"))) for entry in rest)
        requests.append(request)
    return requests


class Store:
    """Words in memory, and slots for changes: what a server should be. It serves one request after the other. One `trick` at most goes
    wrong, and the requests that show it are `wronged`; with BUSY_EARLY one slot is never used."""

    def __init__(self, dice: random.Random, trick: str) -> None:
        self.dice, self.trick, self.after = dice, trick, REQUESTS * 5 // 2
        self.view = View(Tenant("t", len(FIRST), 1, 1), itertools.count(100), list(FIRST))
        self.words = self.view.words
        self.quota = dice.randint(2, MOST_QUOTA)
        self.requests: List[Request] = []
        self.replaced: Dict[int, Tuple[int, Request]] = {}
        self.slots: Dict[int, Set[int]] = {}
        self.wronged: List[Request] = []

    def ask(self, session: int, time: int) -> List[Tuple[int, int, int]]:
        """A session asks for something: what comes of it, and when."""
        long = self.dice.choice((10, 40, 200))
        times = [time + gap for gap in sorted(self.dice.randint(1, long) for _ in range(4))]
        self.requests.append(Request(session, time, *self.view.job(self.dice), until=times[READ]))
        whats = (SERVE, PIN, LEAVE, READ) if self.dice.random() < SHARE_OF_PINS else (SERVE, LEAVE, READ)
        return [(times[what], len(self.requests) - 1, what) for what in whats]

    def go_on(self, now: int, number: int, what: int) -> None:
        """What comes of a request next. The slot of a change is taken by the number of the change, until nobody has a pin on it."""
        request = self.requests[number]
        if what == SERVE:
            if request.is_change and len(self.slots) >= self.quota - (self.trick == BUSY_EARLY):
                request.reply = Reply(Answer.BUSY)
                return
            request.reply = self.reply(request, now)
            if request.is_change:
                self.slots[number] = {number}
        elif what == PIN:
            others = [other for other in self.slots if other != number]
            most = 0 if request.reply.answer is Answer.BUSY else 2 if request.is_change else 1
            for other in self.dice.sample(others, min(most, len(others))):
                self.slots[other].add(number)
        elif what == LEAVE:
            self.slots = {owner: pins - {number} for owner, pins in self.slots.items() if pins - {number}}
        else:
            request.told = now

    def plays(self, trick: str, now: int, *requests: Request) -> bool:
        """Whether this is the moment of the trick, with these requests."""
        plays = trick == self.trick and now >= self.after and not self.wronged
        self.wronged += requests if plays else ()
        return plays

    def reply(self, request: Request, now: int) -> Reply:
        """Serves the request. In a trick a read is told the value that was replaced by a change that was over before, or a change, or a
        part of it, isn't made."""
        if not request.is_change:
            value, change = self.replaced.get(request.address, (0, None))
            is_stale = change and change.until < request.sent and self.plays("a stale VAL", now, request, change)
            return Reply(Answer.VAL, None, value if is_stale else self.words[request.address])
        for address, expected, _ in request.entries:
            if self.words[address] != expected:
                return Reply(Answer.NO, address, self.words[address])
        entries = [entry for entry in request.entries if entry.writes]
        if entries and self.plays("a lost YES", now, request):
            entries = []
        if len(entries) > 1 and self.plays("a torn change", now, request):
            entries = entries[1:]
        for address, expected, new in entries:
            self.replaced[address] = expected, request
            self.words[address] = new
        return Reply(Answer.YES)


def simulated(seed: int, trick: str) -> Tuple[Epoch, bool]:
    """A history of many sessions at a store that plays a trick, and whether it came to that. Some replies are lost, but none of those
    that show the trick; with BUSY_EARLY, which such a loss may explain, none."""
    dice = random.Random(seed)
    store = Store(dice, trick)
    events = [event for session in range(SESSIONS) for event in store.ask(session, dice.randrange(50))]
    heapq.heapify(events)
    while events:
        now, number, what = heapq.heappop(events)
        store.go_on(now, number, what)
        if what == READ and len(store.requests) < REQUESTS:
            for event in store.ask(store.requests[number].session, now + dice.randint(1, 20)):
                heapq.heappush(events, event)
    for request in store.requests:
        if trick != BUSY_EARLY and dice.random() < SHARE_OF_LOST and request not in store.wronged:
            request.reply, request.told, request.until = NOTHING, None, now + 100
    return Epoch("t", FIRST, store.requests, tuple(store.words), store.quota), bool(store.wronged)


def refuse(complaints: List[str], case_name: str, fault: Optional[str]) -> List[str]:
    """What the checker did wrong with a case: nothing where it complained just as it should."""
    if fault is None:
        return [f"{case_name}: refused: {complaints[0]}"] if complaints else []
    return [] if any(fault in complaint for complaint in complaints) else [f"{case_name}: not refused by '{fault}': {complaints}"]


def try_checker(count: int) -> Tuple[List[str], str]:
    """The cases by hand, and random histories: good ones, and those of stores that play a trick. What went wrong, and a line on what was
    tried."""
    wrong, played, early = [], 0, 0
    for case in CASES:
        epoch = Epoch("t", case.first, read_requests(case.lines), case.last, case.quota)
        wrong += refuse(judge(epoch).complaints, case.name, case.fault)
    for case in FAULT_CASES:
        wrong += refuse(judge_faults("t", read_requests(case.lines), FAILED_AT * MICROSECOND), case.name, case.fault)
    for seed in range(count):
        wrong += refuse(judge(simulated(seed, "")[0]).complaints, f"random history {seed}", None)
        early += any(BUSY_THOUGH in complaint for complaint in judge(simulated(seed, BUSY_EARLY)[0]).complaints)
        for trick in TRICKS:
            epoch, is_played = simulated(seed, trick)
            played += is_played
            if is_played and not judge(epoch).complaints:
                wrong.append(f"random history {seed} with {trick}: accepted")
    if early == 0:
        wrong.append(f"random histories: none of {count} refused in which BUSY comes with a slot free")
    good = sum(case.fault is None for case in CASES + FAULT_CASES)
    return wrong, (f"checker: {good} histories by hand accepted, {len(CASES) + len(FAULT_CASES) - good} with a planted fault refused; "
                   f"{count} random ones accepted, {played} with a planted fault refused, and {early} of {count} in which BUSY comes "
                   "with a slot free")
