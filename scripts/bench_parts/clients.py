"""What clients of a store do, each in a process of its own, and how long each of their requests took.

Used by: scripts/bench-server, one_tenant.py, stores.py. WORDS are the most that a tenant may have, RECORD the bytes of a record
place (docs/FILES.md). Another load makes other figures: those of docs/BENCH.md are measured anew.
"""
import base64
import http.client
import json
import multiprocessing
import os
import socket
import sqlite3
import time
from statistics import median
from typing import NamedTuple

HOST = "127.0.0.1"
WORDS = 4096
RECORD = 264


def wrong(text):
    raise SystemExit(f"bench-server: {text}")


# What a client does: each yields once for every request that was answered.


def syncs(path):
    """Writes a few bytes and syncs the file, again and again."""
    file = os.open(path, os.O_RDWR | os.O_CREAT, 0o600)
    os.pwrite(file, bytes(1 << 16), 0)
    os.fsync(file)
    number = 0
    while True:
        number += 1
        os.pwrite(file, number.to_bytes(8, "little") * (RECORD // 8), RECORD * (number % 32))
        os.fdatasync(file)
        yield


class Line:
    """A connection that sends a line, and reads the reply."""

    def __init__(self, port):
        self.socket = socket.create_connection((HOST, port))
        self.socket.setsockopt(socket.IPPROTO_TCP, socket.TCP_NODELAY, 1)
        self.rest = b""

    def ask(self, line):
        self.socket.sendall(line)
        while b"\n" not in self.rest:
            piece = self.socket.recv(4096)
            if not piece:
                wrong("a connection ended")
            self.rest += piece
        reply, _, self.rest = self.rest.partition(b"\n")
        return reply


def line_to(port, tenant):
    """A connection for a tenant."""
    line = Line(port)
    if not line.ask(b"TENANT t%d\n" % tenant).startswith(b"OK "):
        wrong("no such tenant")
    return line


def changes(port, tenant, word=0, is_shared=False):
    """Counts a word of a tenant up, by one each time. A change that is answered BUSY is asked for again; one of a shared word, which others
    count up too, also after a NO, with the value that was told."""
    line = line_to(port, tenant)
    value = int(line.ask(b"GET %d\n" % word).split()[1])
    while True:
        reply = b""
        while reply != b"YES":
            reply = line.ask(b"CAS %d:%d:%d\n" % (word, value, value + 1))
            if is_shared and reply.startswith(b"NO "):
                value = int(reply.split()[2])
            elif reply not in (b"YES", b"BUSY"):
                wrong(f"{reply!r} in place of YES")
        value += 1
        yield


def gets(port, tenant):
    """Reads a tenant's last word."""
    line = line_to(port, tenant)
    while True:
        if not line.ask(b"GET %d\n" % (WORDS - 1)).startswith(b"VAL "):
            wrong("no value")
        yield


def counted_up(store, is_shared, look, change):
    """Counts a word of another store up, from what `look` finds, by a `change` that compares it first. A shared word, which others count up
    too, is looked up again where nothing was changed."""
    value = look()
    while True:
        while not change(value, value + 1):
            if not is_shared:
                wrong(f"{store} changed nothing")
            value = look()
        value += 1
        yield


def sqlite_changes(path, address=0, is_shared=False):
    """Counts a word of a table up, and has it synced."""
    base = sqlite3.connect(path, timeout=600, isolation_level=None)
    base.execute("PRAGMA journal_mode=WAL")
    base.execute("PRAGMA synchronous=FULL")
    base.execute("CREATE TABLE IF NOT EXISTS words (address INTEGER PRIMARY KEY, value INTEGER)")
    base.execute("INSERT OR IGNORE INTO words VALUES (?, 0)", (address,))
    return counted_up(
        "SQLite", is_shared, lambda: base.execute("SELECT value FROM words WHERE address = ?", (address,)).fetchone()[0],
        lambda old, new: base.execute("UPDATE words SET value = ? WHERE address = ? AND value = ?", (new, address, old)).rowcount == 1)


LUA = "if redis.call('GET', KEYS[1]) == ARGV[1] then redis.call('SET', KEYS[1], ARGV[2]) return 1 else return 0 end"


def redis_changes(port, number, is_shared=False):
    """Counts a word of Redis up, by a script."""
    line = Line(port)
    ask = lambda *words: line.ask(b"".join([b"*%d\r\n" % len(words), *(b"$%d\r\n%s\r\n" % (len(it), it) for it in words)]))
    key = b"word%d" % number
    ask(b"SET", key, b"0", b"NX")

    def look():
        ask(b"GET", key)
        return int(line.ask(b""))

    return counted_up("Redis", is_shared, look,
                      lambda old, new: ask(b"EVAL", LUA.encode(), b"1", key, b"%d" % old, b"%d" % new) == b":1\r")


def etcd_changes(port, number, is_shared=False):
    """Counts a word of etcd up, by a transaction."""
    text = lambda it: base64.b64encode(it.encode()).decode()
    link, key = http.client.HTTPConnection(HOST, port), text(f"word{number}")
    link.connect()
    link.sock.setsockopt(socket.IPPROTO_TCP, socket.TCP_NODELAY, 1)

    def ask(path, what):
        link.request("POST", f"/v3/kv/{path}", json.dumps(what))
        return json.loads(link.getresponse().read())

    def look():
        return int(base64.b64decode(ask("range", {"key": key})["kvs"][0]["value"]))

    def put_if(new, **is_so):
        put = {"compare": [{"key": key, **is_so}], "success": [{"requestPut": {"key": key, "value": text(str(new))}}]}
        return ask("txn", put).get("succeeded")

    put_if(0, target="VERSION", version="0")
    return counted_up("etcd", is_shared, look, lambda old, new: put_if(new, target="VALUE", value=text(str(old))))


def client(what, gate, seconds, pins, given):
    """Does what a client does for so long, once all clients are at the gate, and gives how long each request took. It does it once
    before."""
    if pins:
        os.sched_setaffinity(0, pins.timed if what[0] is gets else pins.load)
    works, took = iter(what[0](*what[1:])), []
    next(works)
    gate.wait()
    before = time.monotonic()
    end = before + seconds
    while before < end:
        next(works)
        after = time.monotonic()
        took.append(after - before)
        before = after
    given.put((what[0].__name__, took))


def together(seconds, *whats, pins=None, by=multiprocessing):
    """What these clients took, all at once, each in a process of its own: by kind, the times of all requests. `by`: how processes
    are started."""
    given, gate = by.Queue(), by.Barrier(len(whats))
    processes = [by.Process(target=client, args=(it, gate, seconds, pins, given)) for it in whats]
    for it in processes:
        it.start()
    took = {}
    for _ in processes:
        try:
            kind, times = given.get(timeout=seconds + 300)
        except Exception:
            wrong("a client ended by a fault")
        took.setdefault(kind, []).extend(times)
    for it in processes:
        it.join()
    return took


def rate(took, seconds):
    return sum(map(len, took.values())) / seconds


def quantile(times, part):
    times = sorted(times)
    return times[min(len(times) - 1, int(len(times) * part))]


def half_and_most(times):
    """How many microseconds half of these seconds are at most, and 99 of 100."""
    return median(times) * 1e6, quantile(times, 0.99) * 1e6


class Changed(NamedTuple):
    """Changes a second, and how many microseconds one took: half of them less, and 99 of 100."""
    rate: float
    half: float
    most: float


def changed_of(took, seconds):
    """The figures of what clients took in so many seconds."""
    times = sum(took.values(), [])
    if not times:
        wrong("no change was made")
    return Changed(len(times) / seconds, *half_and_most(times))
