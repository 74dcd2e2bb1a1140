"""The recipes of the client in Python, one call after the other: what each tells, and where it ends. `clients` is `mondlexi`, or
`awaited` for its asyncio twin.

Used by: scripts/check-programs. scripts/check-recipes runs them in many processes. Nothing here passes or fails by how fast the
machine is.
"""
import contextlib
import random
import socket
import sys
import threading
import time

from .common import PATIENCE, SILENT, TOP, Peers, raises, ran, same, wrong
from .served import HOST

import mondlexi  # noqa: E402
import mondlexi.recipes  # noqa: E402
from mondlexi.recipes import Damaged, NoRoom  # noqa: E402

WORDS = 1200
SHORT, LONG = 0.2, 300.0
"""Leases in seconds: one that ends while it is waited for, and one that doesn't."""
STEPS = 60
KEYS = 12
TENANTS = {"recipes": WORDS, "leases": 80, "numbers": 1010, "pairs": 400}
"""The tenants of these checks, and of the examples."""


ENTRIES = {
    "acquire of two locks": range(4, 5), "renew of two locks": range(4, 5), "eight locks": range(16, 17), "a renewal of eight locks": range(16, 17),
    "eight locks given back": range(16, 17), "fifteen blocks": range(16, 17), "three blocks given back": range(4, 5),
    "put of a sorted index": range(7, 15), "put of a key of a sorted index": range(3, 4), "delete of a sorted index": range(4, 9),
    "put of a hash index": range(11, 12), "put of a key of a hash index": range(4, 5), "a move of a hash index": range(5, 6),
    "delete of a hash index": range(2, 3),
    "put of three values": range(5, 6), "put of fourteen values": range(16, 17), "take": range(2, 3), "add": range(2, 3),
    "replace": range(2, 17), "replace of 84 bytes": range(16, 17), "join": range(3, 4), "renew of a place": range(2, 3), "leave": range(2, 3),
}
"""How many entries a change has that is made, as the table of docs/RECIPES.md says."""


@contextlib.contextmanager
def changes_of(client):
    """The numbers of entries of the changes that this client sends meanwhile."""
    link = client._session._link
    right, sent = link.send, []

    async def send(data, timeout):
        sent.extend(len(line.split()) - 1 for line in data.splitlines() if line.startswith(b"CAS"))
        await right(data, timeout)

    link.send = send
    try:
        yield sent
    finally:
        link.send = right


def read(client, call, *arguments):
    """What a read tells, which must send no change."""
    with changes_of(client) as sent:
        told = call(*arguments)
    same(sent, [], f"the changes that {call} sends")
    return told


def change(client, what, call, *arguments):
    """What a change tells. The last one that it sends has as many entries as docs/RECIPES.md says."""
    with changes_of(client) as sent:
        told = call(*arguments)
    same(bool(sent) and sent[-1] in ENTRIES[what], True, f"{sent} entries of {what}, which has {ENTRIES[what]}")
    return told


def try_locks(clients, client):
    """Locks 0 to 9, in the words 0 to 19."""
    first, second = (clients.recipes.Locks(client, owner, 10) for owner in (1, 2))
    both = change(client, "acquire of two locks", first.acquire, [3, 1, 3], LONG)
    same((both.locks, both.tokens), ((1, 3), (1, 1)), "a grant of two locks")
    same(second.acquire([3, 4], LONG), None, "locks of which one is held")
    same(second.acquire([4], LONG).tokens, (1,), "a lock beside them")
    longer = change(client, "renew of two locks", first.renew, both, SHORT)
    same((longer.tokens, longer.left() <= SHORT < both.left()), ((1, 1), True), "a lease that was renewed")
    same(first.renew(both, LONG), None, "a lease that was renewed since")
    taken = second.acquire([1], LONG, wait=PATIENCE)
    same((taken.tokens, longer.left() <= 0), ((2,), True), "a lock that was taken over, once its lease was over")
    same(first.renew(longer, LONG), None, "a lease of locks of which one was taken over")
    first.release(longer)
    same(second.acquire([3], LONG).tokens, (2,), "a lock that was given back beside one that was taken over")
    second.release(taken)
    same(client.get(3), 0, "the holder of a lock that was given back")
    for wanted, lease in (([], 1), ([10], 1), (range(9), 1), ([0], 0.009), ([0], 656)):
        raises(ValueError, f"the locks {wanted} for {lease} seconds", first.acquire, wanted, lease)
    clients.recipes.Locks(client, 65535, 10)
    for owner in (0, 65536):
        told = raises(ValueError, f"the owner {owner} of locks", clients.recipes.Locks, client, owner, 10)
        same("an owner is from 1 to 65535" in str(told), True, f"{told}")
    last = both._replace(locks=(5,), tokens=(client.get(10),), word=1 << 32 | 0xffff << 16 | 100)
    same(clients.recipes.resent(client, [(11, 0, last.word)]), True, "a lease that was renewed as often as its bits tell")
    same(first.renew(last, LONG).tokens, (1,), "the token of the renewal after that")


def try_eight_locks(clients, client):
    """The most locks of one change, in the words 600 to 615."""
    first, second = (clients.recipes.Locks(client, owner, 8, at=600) for owner in (1, 2))
    words = range(600, 616)
    all_of_them = change(client, "eight locks", first.acquire, range(8), LONG)
    same((all_of_them.tokens, client.get_many(words)), (8 * (1,), 8 * [1, all_of_them.word]), "eight locks")
    same([second.acquire([lock], LONG) for lock in range(8)], 8 * [None], "each of eight locks that are held")
    longer = change(client, "a renewal of eight locks", first.renew, all_of_them, LONG)
    same(client.get_many(words), 8 * [1, longer.word], "eight leases that were renewed")
    change(client, "eight locks given back", first.release, longer)
    same(client.get_many(words), 8 * [1, 0], "eight locks that were given back")
    same(second.acquire(range(8), LONG).tokens, 8 * (2,), "eight locks of another owner")


def try_blocks(clients, client):
    """Forty blocks in the words 20 to 59, and three owners."""
    own, other = (clients.recipes.Blocks(client, owner, 40, at=20) for owner in (0, 2))
    same(own.mine(), {}, "blocks of a new owner")
    blocks = change(client, "fifteen blocks", own.allocate, 15, 7)
    same((len(set(blocks)), own.mine()), (15, dict.fromkeys(blocks, 7)), "fifteen blocks")
    others = other.allocate(15) + other.allocate(10)
    same((sorted(blocks + others), other.allocate(), own.allocate(2)), (list(range(40)), None, None), "all blocks")
    raises(ValueError, "a block of another owner", own.free, [blocks[0], others[0]])
    change(client, "three blocks given back", own.free, blocks[:3])
    same(sorted(other.allocate(3, 8)), sorted(blocks[:3]), "blocks that were given back")
    new = clients.recipes.Blocks(client, 0, 40, at=20)
    same(new.mine(), dict.fromkeys(blocks[3:], 7), "what a new process of an owner finds")
    raises(RuntimeError, "a change of the process before", own.free, blocks[3:])
    for count in (0, 16):
        raises(ValueError, f"{count} blocks", new.allocate, count)
    new.free(blocks[3:])
    (most,) = new.allocate(1, 2 ** 32 - 1)
    same(new.mine(), {most: 2 ** 32 - 1}, "the greatest tag")
    for tag in (-1, 2 ** 32):
        raises(ValueError, f"the tag {tag}", new.allocate, 1, tag)
    for owner in (-1, 32768):
        told = raises(ValueError, f"the owner {owner} of blocks", clients.recipes.Blocks, client, owner, 40, at=20)
        same("an owner is from 0 to 32767" in str(told), True, f"{told}")


def try_an_index(client, index, name):
    """The same calls of an index and of a dictionary."""
    model, dice = {}, random.Random(1)
    for number in range(STEPS):
        key, other = dice.randrange(KEYS), dice.randrange(KEYS)
        if dice.random() < 0.6:
            kind = f"put of a key of {name}" if key in model else f"put of {name}"
            same(change(client, kind, index.put, key, number), model.get(key), kind)
            model[key] = number
        else:
            call = (change, client, f"delete of {name}") if key in model else (read, client)
            same(call[0](*call[1:], index.delete, key), model.pop(key, None), f"delete of {name}")
        same(read(client, index.get, other), model.get(other), f"get of {name}")
    raises(ValueError, f"a key of {name}", index.get, 1 << 48)
    for value in (-1, 1 << 48):
        raises(ValueError, f"a value of {name}", index.put, 0, value)
    return model


def fill(index, name, room):
    """Puts new keys until there is no room."""
    for key in range(1000, 1001 + room):
        try:
            index.put(key, key)
        except NoRoom:
            return
    wrong(f"{name} has no end")


def try_indexes(clients, client, own):
    """A sorted index of sixteen pairs in the words 100 to 167, a hash index of sixteen in 200 to 247."""
    index = clients.recipes.SortedIndex(client, own, 16, at=100)
    pairs = sorted(try_an_index(client, index, "a sorted index").items())
    same(read(client, index.range), pairs, "all pairs")
    same(read(client, index.range, 3, 7), [pair for pair in pairs if 3 <= pair[0] < 7], "some pairs")
    fill(index, "a sorted index", 16)
    same(read(client, index.count), 16, "the pairs of an index that is full")
    same(read(client, clients.recipes.SortedIndex(client, own, 16, at=100).count), 16, "these as another one finds them")
    same(mondlexi.recipes.SortedIndex.pairs_in(68), 16, "pairs that fit")
    hashed = clients.recipes.HashIndex(client, own, 16, at=200)
    model = try_an_index(client, hashed, "a hash index")
    with changes_of(client) as sent:
        fill(hashed, "a hash index", 16)
    wanted = {entries for what in ("put of a hash index", "a move of a hash index") for entries in ENTRIES[what]}
    same(set(sent), wanted, "the entries of the changes that fill a hash index, of which some move a key")
    same([read(client, hashed.get, key) for key in range(KEYS)], [model.get(key) for key in range(KEYS)], "an index that is full")


def try_the_small_ones(clients, client, own):
    """A queue of five in the words 300 to 306, one of twenty in 620 to 641, a counter, a value of bytes from 320 on."""
    queue = clients.recipes.Queue(client, own, 5, at=300)
    same((read(client, queue.take), change(client, "put of three values", queue.put, [1, 2, 3]), queue.put([4, 5, 6]), queue.put([4, 5])),
         ([], True, False, True), "a queue")
    same((read(client, queue.count), change(client, "take", queue.take, 2), queue.take(5), queue.count()), (5, [1, 2], [3, 4, 5], 0),
         "a queue that was full")
    raises(ValueError, "a value of a queue", queue.put, [1 << 48])
    for number in range(12):
        same((queue.put([number, 0]), queue.take(4)), (True, [number, 0]), "a queue that goes round")
    long = clients.recipes.Queue(client, own, 20, at=620)
    same((change(client, "put of fourteen values", long.put, range(14)), long.put(range(7)), long.take(20)), (True, False, list(range(14))), "the most values of one change")
    raises(ValueError, "a value more than one change has", long.put, range(15))
    counter = clients.recipes.Counter(client, own, 310)
    same([change(client, "add", counter.add), counter.add(5), counter.add(-2), read(client, counter.get)], [1, 6, 4, 4], "a counter")
    for number in (-5, 2 ** 48 - 4):
        raises(ValueError, f"4 and {number}", counter.add, number)
    same(counter.add(2 ** 48 - 5), 2 ** 48 - 1, "the greatest sum")
    wide = clients.recipes.Wide(client, own, 320)
    empty = read(client, wide.get)
    same((empty.value, change(client, "replace of 84 bytes", wide.replace, empty, b"x" * 84), wide.replace(empty, b"y"), wide.get().value),
         (b"", True, False, b"x" * 84), "a value of bytes")
    same(change(client, "replace", wide.replace, wide.get(), b"x" * 83), True, "a value of which one word is another")
    wide.put(b"")
    same(wide.get().value, b"", "an empty value")
    raises(ValueError, "a value of too many bytes", wide.put, b"x" * 85)
    same(client.cas([(340, 0, 2 ** 40 - 1 << 8)]).made, True, "the last version of a value of bytes")
    raises(ValueError, "a change after the last version", clients.recipes.Wide(client, own, 340).put, b"x")


def try_a_registry(clients, client):
    """Three places in the words 400 to 408."""
    registry, other = (clients.recipes.Registry(client, 3, at=400) for _ in range(2))
    places = [change(client, "join", registry.join, LONG), other.join(LONG), registry.join(SHORT, wait=PATIENCE)]
    same(sorted(place.number for place in places), [0, 1, 2], "places")
    same(other.join(LONG), None, "a place of a registry that is full")
    own = clients.Counted(client, places[2].address)
    same(own.cas([(410, 0, 1)]).made, True, "a change with the count of a place")
    taken = other.join(LONG, wait=PATIENCE)
    same((taken.number, places[2].left() <= 0), (places[2].number, True), "a place whose lease is over")
    raises(RuntimeError, "a change with the count of a place that was taken over", own.cas, [(410, 1, 2)])
    same((registry.renew(places[2], LONG), change(client, "renew of a place", registry.renew, places[0], LONG).number), (None, places[0].number),
         "renewed places")
    for lease in (0.009, 656):
        raises(ValueError, f"a place for {lease} seconds", registry.join, lease)
    change(client, "leave", other.leave, places[1])
    same(registry.join(LONG).number, places[1].number, "a place that was left")


def try_late_leases(client):
    """A lock in the words 1100 and 1101 and a place in 1110 to 1112, whose leases are over before a reply: they are given back."""
    right = client._session.cas

    async def late(entries):
        told = await right(entries)
        time.sleep(SHORT)
        return told

    client._session.cas = late
    try:
        same(mondlexi.recipes.Locks(client, 1, 1, at=1100).acquire([0], SHORT), None, "a lock whose reply came after its lease")
        same(mondlexi.recipes.Registry(client, 1, at=1110).join(SHORT), None, "a place whose reply came after its lease")
    finally:
        del client._session.cas
    same(client.get_many([1100, 1101, 1110, 1111]), [1, 0, 2, 0], "the words of a lock and a place that were given back")


def try_damaged(clients, client, own):
    """Words that are none of a recipe."""
    client.cas([(500, 0, 1), (503, 0, 1), (520, 0, 1), (540, 0, 85)])
    raises(Damaged, "no sorted index", clients.recipes.SortedIndex(client, own, 2, at=500).count)
    raises(Damaged, "no queue", clients.recipes.Queue(client, own, 5, at=520).count)
    raises(Damaged, "no value of bytes", clients.recipes.Wide(client, own, 540).get)
    if clients is mondlexi:
        raises(ValueError, "an index past the last word", mondlexi.recipes.SortedIndex, client, own, 16, at=WORDS - 67)


def try_resent(clients):
    """A change whose reply is lost is sent again, and the words tell whether an earlier sending was made."""
    lost, entry = ["OK 9\n", ""], [(1, 2, 3)]
    for told, texts in ((True, ["YES\n"]), (True, ["NO 1 3\n", "VAL 3\n"]), (False, ["NO 1 4\n", "VAL 4\n"])):
        with clients.Client(Peers(lost, lost, ["OK 9\n", *texts, "BYE\n"]).at, "t") as client:
            same(clients.recipes.resent(client, entry), told, f"a change that is sent again and answered {texts}")
    with clients.Client(Peers(["OK 9\n", "NO 1 3\n", "BYE\n"]).at, "t") as client:
        same(clients.recipes.resent(client, entry), False, "a change that another one made before")
    for texts, kind in (([lost], mondlexi.Unknown), ([["OK 9\n", "FAULT\n", "BYE\n"]], mondlexi.Unknown)):
        client = clients.Client(Peers(*texts).at, "t")
        raises(kind, f"a change after {texts}", clients.recipes.resent, client, entry, 0.1)
    client = clients.Client(Peers(["OK 9\n", "BYE\n"]).at, "t")
    client.close()
    raises(mondlexi.Lost, "a change that is not sent", clients.recipes.resent, client, entry, 0.1)


FAULT, ENDS = "FAULT", "the end of the connection"
"""How a change ends without an answer that says whether it was made, beside SILENT."""
BRIEF = 0.05
"""For how many seconds a reply that doesn't come is waited for."""


class Doubtful:
    """A server of 99 words in memory. `fate`: whether the next change of several words is made, and how it ends; after it all goes well."""

    def __init__(self):
        self.words, self.fate = 99 * [0], None
        self.listener = socket.create_server((HOST, 0))
        self.at = f"{HOST}:{self.listener.getsockname()[1]}"
        threading.Thread(target=self.accept, daemon=True).start()

    def accept(self):
        with contextlib.suppress(OSError):
            while True:
                threading.Thread(target=self.serve, args=(self.listener.accept()[0],), daemon=True).start()

    def serve(self, connection):
        with connection, connection.makefile("rb") as lines, contextlib.suppress(OSError):
            connection.setsockopt(socket.IPPROTO_TCP, socket.TCP_NODELAY, 1)
            for line in lines:
                told = self.told(*line.decode().split())
                if told == SILENT:
                    lines.read()
                if told in (SILENT, ENDS):
                    return
                connection.sendall(f"{told}\n".encode())

    def told(self, kind, *more):
        """What it says to a line."""
        if kind == "GET":
            return f"VAL {self.words[int(more[0])]}"
        if kind != "CAS":
            return {"TENANT": f"OK {len(self.words)}", "QUIT": "BYE"}[kind]
        entries = [tuple(map(int, it.split(":"))) for it in more]
        fate = self.fate if len(entries) > 1 else None
        missed = [f"NO {address} {self.words[address]}" for address, expected, _ in entries if self.words[address] != expected]
        if not missed and (fate is None or fate[0]):
            for address, _, value in entries:
                self.words[address] = value
        self.fate = None if fate else self.fate
        return fate[1] if fate else (missed or ["YES"])[0]


def make_undecided(what, client, server, fate, call, *arguments):
    """Makes a call whose change has this fate: it raises Unknown. Once the server has heard the change the client is connected again."""
    session, right = client._session, client._session._link.send
    options, server.fate = session.options, fate

    async def send(data, timeout):
        # Only the reply that doesn't come is waited for so briefly.
        if fate[1] == SILENT and data.startswith(b"CAS") and len(data.split()) > 2:
            session.options = options._replace(timeout=BRIEF)
        await right(data, timeout)

    session._link.send = send
    raises(mondlexi.Unknown, f"{what}, {'made' if fate[0] else 'not made'}, whose answer is {fate[1]}", call, *arguments)
    session.options, session._link.send = options, right
    while server.fate:
        time.sleep(0.001)
    client.reconnect(PATIENCE)


def try_undecided(clients):
    """A call that ends undecided raises Unknown. Then `settle`, the same call again, `mine` of blocks or the end of a lease tells what the words
    are, as docs/RECIPES.md says of each recipe."""
    for fate in [(is_made, how) for is_made in (True, False) for how in (FAULT, SILENT, ENDS)]:
        server = Doubtful()
        with clients.Client(server.at, "t", timeout=PATIENCE) as client:
            own, kinds = clients.Counted(client, 98, 0.0), clients.recipes
            index, hashed, queue = kinds.SortedIndex(client, own, 3), kinds.HashIndex(client, own, 8, at=16), kinds.Queue(client, own, 5, at=40)
            counter, wide = kinds.Counter(client, own, 47), kinds.Wide(client, own, 48)
            counter.add(3)
            for it in (index, hashed):
                it.put(1, 5)
            queue.put([7, 8])
            found = wide.get()
            for what, look, old, new, call, *arguments in (
                    ("put of a sorted index", index.range, [(1, 5)], [(1, 5), (2, 6)], index.put, 2, 6),
                    ("delete of a sorted index", lambda: index.get(1), 5, None, index.delete, 1),
                    ("put of a hash index", lambda: hashed.get(2), None, 6, hashed.put, 2, 6),
                    ("delete of a hash index", lambda: hashed.get(1), 5, None, hashed.delete, 1),
                    ("put of a queue", queue.count, 2, 3, queue.put, [9]),
                    ("take", lambda: queue.count() > 1 + fate[0], True, False, queue.take, 1),
                    ("add", counter.get, 3, 4, counter.add),
                    ("replace", lambda: wide.get().value, b"", b"x", wide.replace, found, b"x")):
                same(look(), old, f"what is there before {what}")
                make_undecided(what, client, server, fate, call, *arguments)
                same((own.settle(), look()), (fate[0], new if fate[0] else old), f"whether {what} was made, which ended by {fate[1]}")
            for name, it in (("a sorted index", index), ("a hash index", hashed)):
                make_undecided(f"put of {name}", client, server, fate, it.put, 3, 7)
                same((it.put(3, 7), it.get(3)), (7 if fate[0] else None, 7), f"the same put of {name} again, after one that ended by {fate[1]}")
                make_undecided(f"delete of {name}", client, server, fate, it.delete, 3)
                same((it.delete(3), it.get(3)), (None if fate[0] else 7, None), f"the same delete of {name} again, after one that ended by {fate[1]}")
            try_undecided_blocks(kinds.Blocks(client, 0, 20, at=64, wait=0.0), client, server, fate)
            try_undecided_leases(kinds, client, server, fate)
        server.listener.close()


def try_undecided_blocks(blocks, client, server, fate):
    """After a call that ends undecided `mine` tells whether blocks were taken, or given back."""
    same(blocks.mine(), {}, "no blocks")
    make_undecided("allocate", client, server, fate, blocks.allocate, 3, 7)
    same(list(blocks.mine().values()), 3 * [7] if fate[0] else [], f"the blocks after an allocate that ended by {fate[1]}")
    (block,) = blocks.allocate(1, 8)
    make_undecided("free", client, server, fate, blocks.free, [block])
    same(block in blocks.mine(), not fate[0], f"whether a block is there after a free that ended by {fate[1]}")


def try_undecided_leases(kinds, client, server, fate):
    """A lock in the words 85 and 86, a place in 87 to 89. After a call that ends undecided another one gets them once the lease is over:
    the token, and how often the place was moved, tell whether the call was made."""
    first, second = (kinds.Locks(client, owner, 1, at=85, wait=0.0) for owner in (1, 2))
    make_undecided("acquire", client, server, fate, first.acquire, [0], SHORT)
    grant = second.acquire([0], LONG, wait=PATIENCE)
    same(grant.tokens, (1 + fate[0],), f"the token after an acquire that ended by {fate[1]}")
    make_undecided("release", client, server, fate, second.release, second.renew(grant, SHORT))
    same(first.acquire([0], LONG, wait=PATIENCE).tokens, (2 + fate[0],), f"the token after a release that ended by {fate[1]}")
    registry, other = (kinds.Registry(client, 1, at=87, wait=0.0) for _ in range(2))
    make_undecided("join", client, server, fate, registry.join, SHORT)
    place = other.join(LONG, wait=PATIENCE)
    same(place.moves, 1 + fate[0], f"how often a place was moved after a join that ended by {fate[1]}")
    make_undecided("leave", client, server, fate, other.leave, other.renew(place, SHORT))
    same(registry.join(LONG, wait=PATIENCE).moves, 3 + 2 * fate[0], f"how often it was moved after a leave that ended by {fate[1]}")


def example(name, server, tenant, *words, given="", status=0):
    """What an example of the client prints; it ends with this status."""
    path = TOP / "clients/python/examples" / f"{name}.py"
    found, told, errors = ran(sys.executable, "-B", path, server.at, tenant, *words, given=given, timeout=PATIENCE)
    same(found, status, f"the status of the example {name} {' '.join(words)}, which says {errors!r}")
    return told


def try_examples(server):
    """Each example of the client, once or twice."""
    told = [sys.executable, "-c", "import os; print(os.environ['MONDLEXI_TOKENS'])"]
    same([example("lock_table", server, "leases", "1", "7,3", *told) for _ in range(2)], ["1,1\n", "2,2\n"], "tokens")
    example("lock_table", server, "leases", "1", "7", sys.executable, "-c", "import sys; sys.exit(5)", status=5)
    taken = example("allocator", server, "numbers", "4", "take", "3", "9").split()
    same(len(taken), 3, "blocks that were taken")
    same(example("allocator", server, "numbers", "4", "mine"), "".join(f"{block} 9\n" for block in taken), "blocks of an owner")
    same(example("allocator", server, "numbers", "4", "give", *taken), "", "blocks that are left")
    same(example("sorted_index", server, "pairs", "10", "20", given="17 4711\n3 5\n12 6\n"), "12 6\n17 4711\n", "pairs of a range")


def try_recipes(clients, server):
    """All of these, at a server with a tenant of its own for each client."""
    with clients.Client(server.at, "recipes", timeout=PATIENCE) as client:
        own = clients.Counted(client, WORDS - 1)
        try_locks(clients, client)
        try_eight_locks(clients, client)
        try_blocks(clients, client)
        try_indexes(clients, client, own)
        try_the_small_ones(clients, client, own)
        try_a_registry(clients, client)
        if clients is mondlexi:
            try_late_leases(client)
        try_damaged(clients, client, own)
