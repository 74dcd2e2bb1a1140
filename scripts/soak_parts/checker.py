"""Judges a history: is there a serial order of a tenant's requests in which every reply is right?

The order has to agree with real time (what was over before another was sent comes first) and with each session. A change
that was answered YES is in it; one without a reply, or answered FAULT, is in it wholly or not at all.

No search is needed, since each value is written once. The changes that were made are known: those answered YES, and the
undecided ones of which a value is seen. (One that was made and of which nothing is seen may as well be left out: all replies
stay right.) Each made change follows, at each of its words, the change that wrote what it expected, and each value that is
seen was seen behind the change that wrote it and before the next one of its word. With the orders of time and of sessions
these are all the conditions, so there is a serial order just where they have no circle.

Used by: backups.py, lives.py, planted.py, power.py, searched.py, failover_parts/load.py. A further condition has a planted fault in
planted.py, and a case in the search of searched.py.
"""
import heapq
from collections import Counter
from dataclasses import dataclass, field
from typing import Dict, List, NamedTuple, Optional, Sequence, Set, Tuple

from .history import UNDECIDED, Answer, Entry, Epoch, Request, begins_and_ends
from .slots import wrongly_busy

Place = Tuple[int, int]
"""An address, and a value that its word had for a time."""
LAST = "the words found at the end"
MOST_STARTS = 10
"""From how many requests a short circle is looked for."""


@dataclass
class Verdict:
    """What was found of an epoch: `complaints` is empty where all is right. `made` changes took place, and of these `found`
    were undecided ones."""
    complaints: List[str] = field(default_factory=list)
    made: int = 0
    found: int = 0


class Node(NamedTuple):
    """Something that has one place in the serial order: a request, or, without one, the reading of the last words."""
    request: Optional[Request]
    sees: Tuple[Place, ...]
    writes: Tuple[Entry, ...]

    def text(self) -> str:
        """For a complaint."""
        return LAST if self.request is None else self.request.text()


class Judge:
    """One epoch under judgement."""

    def __init__(self, epoch: Epoch) -> None:
        self.epoch = epoch
        self.verdict = Verdict()
        self.writers: Dict[Place, Request] = {}
        for request in epoch.requests:
            for entry in request.entries:
                if entry.writes and self.writers.setdefault((entry.address, entry.new), request) is not request:
                    raise ValueError(f"{entry.new} is written twice to address {entry.address}")

    def complain(self, text: str, *nodes: str) -> None:
        """Notes that something is wrong, with the requests that show it."""
        self.verdict.complaints.append("\n    ".join([f"tenant {self.epoch.tenant}: {text}", *nodes]))

    def run(self) -> Verdict:
        """The verdict."""
        self.look_at_single_replies()
        for request in wrongly_busy(self.epoch.requests, self.epoch.quota):
            self.complain(f"BUSY though fewer than {self.epoch.quota} slots can have been taken", request.text())
        nodes = self.nodes()
        self.verdict.made = sum(1 for node in nodes if node.writes)
        # Of the changes that were answered FAULT one at most is in doubt, so one at most is found.
        found = [node.text() for node in nodes if node.writes and node.request.reply.answer is Answer.FAULT]
        if len(found) > 1:
            self.complain("more than one change was found that was answered FAULT", *found)
        followers = self.followers(nodes)
        if not self.verdict.complaints:
            self.look_for_circle(nodes, followers)
        return self.verdict

    def look_at_single_replies(self) -> None:
        """What is wrong whatever else was asked."""
        for request in self.epoch.requests:
            answer, address, value = request.reply
            fits = answer in UNDECIDED or (answer is not Answer.VAL) == request.is_change
            if answer is Answer.NO:
                fits = fits and any(e.address == address and e.expected != value for e in request.entries)
            if not fits:
                self.complain("a reply that such a request can't have", request.text())
            if answer is Answer.WORN:
                self.complain("WORN long before numbers are used up", request.text())

    def nodes(self) -> List[Node]:
        """Every request that has a place in the order: replies that tell words, and the changes that were made."""
        nodes: List[Node] = []
        for request in self.epoch.requests:
            answer, address, value = request.reply
            if answer is Answer.YES:
                nodes.append(changed(request))
            elif value is not None:
                nodes.append(Node(request, ((request.address if address is None else address, value),), ()))
        if self.epoch.last is not None:
            nodes.append(Node(None, tuple(enumerate(self.epoch.last)), ()))
        made = {id(node.request) for node in nodes if node.writes}
        for node in nodes:  # it grows by the undecided changes that were found
            for place in node.sees:
                writer = self.writer(place, node)
                if writer is not None and id(writer) not in made:
                    made.add(id(writer))
                    self.verdict.found += 1
                    nodes.append(changed(writer))
        return nodes

    def writer(self, place: Place, node: Node) -> Optional[Request]:
        """Which change wrote a value that was seen. None, of the first words; also where it's wrong, with a complaint."""
        address, value = place
        if value == self.epoch.first[address]:
            return None
        writer = self.writers.get(place)
        if writer is None:
            self.complain(f"nobody wrote {value} to address {address}", node.text())
        elif writer.reply.answer in (Answer.NO, Answer.BUSY):
            self.complain(f"{value} of address {address} is from a change that was refused", node.text(), writer.text())
            return None
        return writer

    def followers(self, nodes: Sequence[Node]) -> Dict[Place, int]:
        """Which made change took the place of each value: the index of its node."""
        followers: Dict[Place, int] = {}
        for index, node in enumerate(nodes):
            for entry in node.writes:
                other = followers.setdefault((entry.address, entry.expected), index)
                if other != index:
                    self.complain(f"two changes were made from {entry.expected} at address {entry.address}",
                                  nodes[other].text(), node.text())
        return followers

    def look_for_circle(self, nodes: Sequence[Node], followers: Dict[Place, int]) -> None:
        """Complains where the conditions have a circle."""
        graph = Graph(len(nodes))
        wrote = {(entry.address, entry.new): index for index, node in enumerate(nodes) for entry in node.writes}
        for index, node in enumerate(nodes):
            for place in node.sees:
                graph.add(wrote.get(place), index)
                graph.add(index, followers.get(place))
        add_sessions(graph, nodes, self.epoch.requests)
        add_times(graph, nodes)
        circle = graph.circle()
        if circle:
            texts = [nodes[index].text() for index in circle]
            self.complain("no serial order: each of these comes before the next one, and the last before the first", *texts)


def changed(request: Request) -> Node:
    """The node of a change that was made."""
    sees = tuple((entry.address, entry.expected) for entry in request.entries)
    return Node(request, sees, tuple(entry for entry in request.entries if entry.writes))


def add_sessions(graph: "Graph", nodes: Sequence[Node], requests: Sequence[Request]) -> None:
    """Requests of one session are served in order."""
    index_of = {id(node.request): index for index, node in enumerate(nodes) if node.request is not None}
    before: Dict[int, int] = {}
    for request in requests:
        index = index_of.get(id(request))
        if index is not None:
            graph.add(before.get(request.session), index)
            before[request.session] = index


def add_times(graph: "Graph", nodes: Sequence[Node]) -> None:
    """What was over before another was sent comes first; the last words come behind all. One further node stands for each
    moment at which a request was over, so that there are no more conditions than requests."""
    moment = None
    for is_end, index in begins_and_ends([node.request for node in nodes]):
        if is_end:
            earlier, moment = moment, graph.node()
            graph.add(earlier, moment)
            graph.add(index, moment)
        else:
            graph.add(moment, index)
    for index, node in enumerate(nodes):
        if node.request is None:
            graph.add(moment, index)


class Graph:
    """Numbered nodes, and which of them come before which. The first ones, as many as `requests`, stand for requests."""

    def __init__(self, requests: int) -> None:
        self.requests = requests
        self.after: List[List[int]] = [[] for _ in range(requests)]

    def node(self) -> int:
        """A further node."""
        self.after.append([])
        return len(self.after) - 1

    def add(self, before: Optional[int], after: Optional[int]) -> None:
        """The one comes before the other. Nothing where one of them isn't there, or both are the same."""
        if before is not None and after is not None and before != after:
            self.after[before].append(after)

    def circle(self) -> List[int]:
        """A circle of few requests, or nothing where there is an order."""
        left = self.without_order()
        if not left:
            return []
        node, seen = next(iter(left)), {}
        behind = {after: before for before in left for after in self.after[before] if after in left}
        while node not in seen:
            seen[node] = len(seen)
            node = behind[node]
        starts = [start for start in list(seen)[seen[node]:] if start < self.requests]
        return min((self.way_back(start, left) for start in starts[:MOST_STARTS]), key=len)

    def without_order(self) -> Set[int]:
        """The nodes that can't be put in order, one behind the other: all circles and what comes behind them."""
        waits = Counter(follower for followers in self.after for follower in followers)
        left = set(range(len(self.after)))
        ready = [node for node in left if waits[node] == 0]
        while ready:
            node = ready.pop()
            left.remove(node)
            waits.subtract(self.after[node])
            ready += {follower for follower in self.after[node] if waits[follower] == 0}
        return left

    def way_back(self, start: int, among: Set[int]) -> List[int]:
        """The requests on a way from this one back to it that has the fewest of them."""
        came_from: Dict[int, int] = {}
        queue = [(0, start, start)]
        while start not in came_from:
            length, node, before = heapq.heappop(queue)
            if node in came_from:
                continue
            if length > 0:
                came_from[node] = before
            for follower in self.after[node]:
                if follower in among and follower not in came_from:
                    heapq.heappush(queue, (length + (follower < self.requests) + (length == 0), follower, node))
        way = [start]
        while came_from[way[-1]] != start:
            way.append(came_from[way[-1]])
        return [node for node in way[::-1] if node < self.requests]


def judge(epoch: Epoch) -> Verdict:
    """What is wrong with a tenant's requests of one epoch, if anything is."""
    return Judge(epoch).run()


def judge_faults(tenant: str, requests: Sequence[Request], failed_at: Optional[int]) -> List[str]:
    """What is wrong with the FAULTs that one life of a server told, of a tenant whose file had its first failing call at this
    time, if it had one: FAULT comes only where a call has failed, and once it was told no change is answered otherwise."""
    faults = [request for request in requests if request.reply.answer is Answer.FAULT]
    if not faults:
        return []
    early = [request for request in faults if failed_at is None or request.told < failed_at]
    told = min(request.told for request in faults)
    late = [request for request in requests if request.sent > told and request.is_change
            and request.reply.answer not in (Answer.FAULT, Answer.NONE)]
    return [f"tenant {tenant}: FAULT though no call on its file has failed\n    {request.text()}" for request in early] + \
           [f"tenant {tenant}: a change behind a FAULT that was not answered so\n    {request.text()}" for request in late]
