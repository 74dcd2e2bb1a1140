"""The client in Python at servers and at peers, in what only this language has, or what no machine is too slow for: each of its calls
and exceptions, arguments that are refused, connections that break, replies that are late, and snapshots. `clients` is `mondlexi`, or
`awaited` for its asyncio twin. What a client sends and tells in any language is a case of clients/cases, which scripts/check-programs
plays beside these.

Used by: scripts/check-programs. Nothing here passes or fails by how fast the machine is.
"""
import asyncio
import contextlib
import signal
import socket
import threading
import time
from concurrent.futures import ThreadPoolExecutor
from unittest import mock

from .common import HOST, PATIENCE, QUOTA, RESET, SILENT, WORDS, Peers, at, raises, same, wrong

import mondlexi  # noqa: E402

BIG = mondlexi.MAX_VALUE
AT_ONCE = 512
"""How many lines a client sends before it reads their replies."""
BROKEN, VALUE = ["OK 9\n", ""], ["OK 9\n", "VAL 5\n", "BYE\n"]
"""A connection that breaks at the first call, and one that answers a read."""
WRONG_CALLS = (
    *((ValueError, "cas", entries) for entries in ([], [(a, 0, 0) for a in range(17)], [(1, 0, 0), (1, 0, 1)], [(WORDS, 0, 0)],
                                                   [(-1, 0, 0)], [(0, -1, 0)], [(0, 0, BIG + 1)])),
    *((ValueError, "read", addresses) for addresses in ([], range(17), [WORDS], [-1])),
    (ValueError, "get", WORDS), (ValueError, "get_many", [0, WORDS]), (ValueError, "stable", [WORDS]),
    (TypeError, "get", "0"), (TypeError, "get_many", ["0"]), (TypeError, "cas", [(0, 0, 1.0)]))
"""Calls that are refused before anything is sent."""
WRONG_CLIENTS = (
    *((ValueError, at(1), tenant, {}) for tenant in ("", "T", 17 * "a", "t t", "t\n")),
    *((ValueError, text, "t", {}) for text in ("", HOST, at(0), at(65536), at("a"), "::1:7000", f" {at(1)}", "unix:", "unix:" + 108 * "s",
                                               "unix:a\0")),
    *((ValueError, at(1), "t", {name: seconds}) for name in ("timeout", "patience", "within", "reads_within")
      for seconds in (-1.0, float("nan"), float("inf"))),
    *((ValueError, at(1), "t", {"reconnects": count}) for count in (-1, 1001)),
    *((TypeError, at(1), "t", {name: wrong_one}) for name, wrong_one in (("within", "1"), ("within", None), ("reconnects", "1"))),
    (TypeError, 5, "t", {}), (TypeError, at(1), b"t", {}))
"""Arguments of a client that are refused before it connects."""
WRONG_SNAPSHOTS = ((ValueError, "t", "t", 1), (ValueError, HOST, "t", 1), (ValueError, at(1), "T", 1), (ValueError, at(1), "t/", 1),
                   (ValueError, at(1), "t", 0), (TypeError, 5, "t", 1), (TypeError, at(1), b"t", 1), (TypeError, at(1), "t", "1"))
"""The same of a snapshot, with its seconds."""
PAGE = "words 2\nplaces 1\nopen 0 1 7\nword 0 5\nword 1 7\n"
for kind in (mondlexi.Client, mondlexi.Administrator):
    kind.__init__.__kwdefaults__["timeout"] = PATIENCE


@contextlib.contextmanager
def impatient(client, seconds=1):
    """Lets a client that was greeted, however long that took, wait so long for its next reply."""
    session, before = client._session, client._session.options
    session.options = before._replace(timeout=seconds)
    try:
        yield
    finally:
        session.options = before


# At a server


def try_calls(clients, server):
    with clients.Client(server.at, "t") as client:
        same(client.words, WORDS, "words")
        same([client.get(a) for a in (0, 9)], [0, 0], "get of a new tenant")
        outcome = client.cas([(9, 0, BIG), (0, 0, 1)])
        same((outcome.made, bool(outcome), outcome.address, outcome.value), (True, True, None, None), "cas")
        same(client.get(9), BIG, "get of the greatest value")
        outcome = client.cas([(0, 1, 2), (9, 5, 6)])
        same((outcome.made, bool(outcome), outcome.address, outcome.value), (False, False, 9, BIG), "cas that fails")
        same(client.read([9, 1, 0, 9]), [BIG, 0, 1, BIG], "read")
        same(client.read([9]), [BIG], "read of one")
        several = [0, *range(10, 25)]
        same(client.read(several), [1] + 15 * [0], "read of sixteen")
        same(client.cas([(a, int(a == 0), BIG - a) for a in several]).made, True, "cas of sixteen")
        same(client.read(several), [BIG - a for a in several], "read behind a cas of sixteen")
        for error, call, argument in WRONG_CALLS:
            raises(error, f"{call} of {argument}", getattr(client, call), argument)
        for error, entry in ((ValueError, (0, 1)), (ValueError, (0, 0, 1, 2)), (TypeError, 0)):
            same(str(raises(error, f"cas of {entry}", client.cas, [entry])), f"an entry is (address, expected, new), not {entry!r}", "what it says")
        same(client.get(0), BIG, "get behind refused arguments")
    client.close()
    raises(mondlexi.Lost, "get when closed", client.get, 0)
    raises(mondlexi.Lost, "cas when closed", client.cas, [(0, 0, 0)])
    client.reconnect()
    same(client.get(0), BIG, "get of a client connected anew")
    client.close()
    with clients.Administrator(server.at) as administrator:
        report = administrator.report()
        same(report.free, 256, "free of the report")
        same([t.name for t in report.tenants], ["t", "load", "away"], "tenants of the report")
        same(report.tenants[0], mondlexi.TenantReport("t", WORDS, QUOTA, 2 * QUOTA, 0, True), "a line of the report")
        same((report.tenants[2].places, report.tenants[2].up), (0, False), "a tenant without its file")


def try_failures(clients, server):
    same(raises(mondlexi.Refused, "no tenant", clients.Client, server.at, "nobody").number, 5, "its number")
    with clients.Client(server.at, "away") as client:
        for call, argument in (("get", 0), ("cas", [(0, 0, 1)]), ("read", [0, 1]), ("get_many", [0, 1, 0]), ("get", 1)):
            raises(mondlexi.Fault, f"{call} of a tenant that is down", getattr(client, call), argument)


def try_threads(clients, server):
    """Threads that share one client count in one word; two of them have counts of their changes."""
    def count(caller):
        for _ in range(10):
            while not caller.cas([(8, value := client.get(8), value + 1)]):
                pass

    with clients.Client(server.at, "t") as client, ThreadPoolExecutor(4) as threads:
        list(threads.map(count, (client, client, clients.Counted(client, 6), clients.Counted(client, 7))))
        same(client.get(8), 40, "what four threads counted")


def try_many(clients, server):
    """Many words are what they are one by one, in the order that was asked for."""
    with clients.Client(server.at, "t") as client:
        one_by_one = [client.get(address) for address in range(WORDS)]
        same(len(set(one_by_one)) > 5, True, "values that differ")
        for addresses in (range(WORDS), iter([9, 0, 9]), [], (k % WORDS for k in range(2 * AT_ONCE + 1))):
            asked = list(addresses)
            same(client.get_many(iter(asked)), [one_by_one[k] for k in asked], f"get_many of {len(asked)}")
            same(client.stable(asked), [one_by_one[k] for k in asked], f"stable of {len(asked)}")


def try_a_killed_server(clients, server):
    first, second = (clients.Client(server.at, "t") for _ in range(2))
    before = first.get(8)
    server.kill()
    raises(mondlexi.Lost, "get from a killed server", first.get, 8)
    raises(mondlexi.Unknown, "cas at a killed server", second.cas, [(8, before, before + 1)])
    raises(mondlexi.Lost, "cas behind Unknown", second.cas, [(8, before, before + 1)])
    raises(mondlexi.Lost, "nobody listens", clients.Client, server.at, "t")
    raises(mondlexi.Lost, "nobody listens for a while", clients.Client, server.at, "t", within=0.1)
    raises(mondlexi.Lost, "reconnect where nobody listens", second.reconnect, 0.1)
    timer = threading.Timer(0.3, server.start)
    timer.start()
    try:
        clients.Client(server.at, "t", within=PATIENCE).close()
        first.reconnect(PATIENCE)
    finally:
        timer.join()
    same(first.get(8), before, "a word over a restart")
    first.close()


def try_a_late_change(clients, server):
    """A change on which its client has given up is made all the same, once the server goes on."""
    client = clients.Client(server.at, "t")
    before = client.get(9)
    server.stop()
    with impatient(client):
        raises(mondlexi.Unknown, "cas at a server that is held up", client.cas, [(9, before, before - 1)])
    server.process.send_signal(signal.SIGCONT)
    client.reconnect(PATIENCE)
    deadline = time.monotonic() + PATIENCE
    while client.get(9) == before and time.monotonic() < deadline:
        time.sleep(0.01)
    same(client.get(9), before - 1, "a word changed late")
    client.close()


# At peers


def try_connections(clients, folder):
    """Servers that can't be connected to: arguments that are refused, a connection to itself, no local socket, a reset at once."""
    for error, server_at, tenant, options in WRONG_CLIENTS:
        raises(error, f"a client of {server_at!r}, {tenant!r}, {options}", clients.Client, server_at, tenant, **options)
    with socket.create_server((HOST, 0)) as listener:
        port = listener.getsockname()[1]
    # Where nobody listens, a socket may be given the very port that it connects to; here it asks for it.
    connect, stream = socket.create_connection, asyncio.open_connection
    with mock.patch("socket.create_connection", lambda at, timeout: connect(at, timeout, at)), \
            mock.patch("asyncio.open_connection", lambda host, port, **more: stream(host, port, local_addr=(host, port), **more)):
        error = raises(mondlexi.Lost, "a connection to itself", clients.Client, at(port), "t")
    same("nobody listens" in str(error), True, f"what is said of a connection to itself: {error}")
    reset = ConnectionResetError("reset")
    with mock.patch("socket.create_connection", side_effect=reset), mock.patch("asyncio.open_connection", side_effect=reset):
        raises(mondlexi.Full, "a server that resets while the client connects", clients.Client, at(1), "t")
    same(issubclass(mondlexi.Full, mondlexi.Lost), True, "Full is a kind of Lost")
    with socket.socket(socket.AF_UNIX) as closed:
        closed.bind(str(folder / "closed"))
    for path in (folder / "closed", folder / "absent", folder):
        raises(mondlexi.Lost, f"nobody listens at {path}", clients.Client, f"unix:{path}", "t")


def try_a_host_of_several_addresses(clients):
    """A host's name may have several addresses: of a machine that says nothing, of one that refuses, and of one that serves."""
    with socket.create_server((HOST, 0)) as unused:
        port = unused.getsockname()[1]
    Peers(["OK 9\n", "VAL 7\n", "B"], host="127.0.0.3", port=port)
    with socket.socket() as silent, socket.socket() as first:
        silent.bind(("127.0.0.2", port))
        silent.listen(0)
        first.connect(("127.0.0.2", port))
        found = [(socket.AF_INET, socket.SOCK_STREAM, 6, "", (f"127.0.0.{number}", port)) for number in (1, 2, 3)]
        look = socket.getaddrinfo
        with mock.patch("socket.getaddrinfo", lambda host, *rest, **more: found if host == "several" else look(host, *rest, **more)):
            with clients.Client(f"several:{port}", "t", timeout=2.0) as client:
                same(client.get(0), 7, "get at the third address of a host")


def try_late_replies(clients):
    """A late reply ends a connection, and says so. A read asks again over a new one; it doesn't wait twice, and a change isn't sent again."""
    for call, argument, error in (("get", 7, mondlexi.Lost), ("get_many", [7, 8], mondlexi.Lost), ("cas", [(0, 1, 2)], mondlexi.Unknown)):
        with clients.Client(Peers(["OK 9\n", SILENT], VALUE).at, "t") as client:
            with impatient(client):
                told = str(raises(error, f"{call} without a reply", getattr(client, call), argument))
            same(told.endswith(", for 1 seconds"), True, f"what a client says of a late reply: {told}")
            same(call != "get" or told == "GET 7: no reply, for 1 seconds", True, f"what it says of a get: {told}")
            same(client.get(7), 5, "get after a late reply")
    with clients.Client(Peers(["OK 9\n", "VAL 1\n", "VAL 2\n", SILENT], VALUE).at, "t") as client:
        with impatient(client):
            raises(mondlexi.Lost, "read whose change has no reply", client.read, [1, 2])
    with clients.Administrator(Peers(["OK ADMIN\n", SILENT]).at) as administrator:
        with impatient(administrator):
            raises(mondlexi.Lost, "report without a reply", administrator.report)
    told = str(raises(mondlexi.Lost, "a peer without a greeting", clients.Client, Peers([SILENT]).at, "t", timeout=0.2))
    same(told, "TENANT t: no reply yet, as when all sessions are taken, for 0.2 seconds", "what a client says of a peer without a greeting")


def try_reads_within(clients):
    """For so many seconds a read asks again whatever was lost: a late reply, or connections that break again and again."""
    peers = Peers(["OK 9\n", SILENT], BROKEN, [], [""], BROKEN, VALUE)
    with clients.Client(peers.at, "t", reconnects=0, reads_within=PATIENCE) as client:
        with impatient(client):
            same(client.get(7), 5, "get that is asked again for a while")
    same(peers.heard()[-1], ["TENANT t", "GET 7", "QUIT"], "what is sent at last")
    with clients.Client(Peers(BROKEN).at, "t", reads_within=0.1) as client:
        raises(mondlexi.Lost, "get that is asked again for too short a while", client.get, 7)
    with clients.Client(Peers(BROKEN, VALUE).at, "t", reads_within=PATIENCE) as client:
        raises(mondlexi.Unknown, "a change whose connection breaks", client.cas, [(0, 1, 2)])
        raises(mondlexi.Lost, "a change after that", client.cas, [(0, 1, 2)])
        same(client.get(7), 5, "get after that")


def try_what_is_told(clients):
    """What failures say, and of what kind their causes are."""
    with clients.Client(Peers(["OK 9\n", "VAL 1\n", "FAULT\n", "VAL 2\n", "BYE\n"]).at, "t") as client:
        error = raises(mondlexi.Fault, "get_many with a FAULT among the replies", client.get_many, [0, 1, 2])
        same(str(error).startswith("GET 1: "), True, f"what is said of it: {error}")
    with clients.Client(Peers(["OK 9\n", "YES\n", "FAULT\n", "BYE\n"]).at, "t") as client:
        own = clients.Counted(client, 5)
        told = str(raises(ValueError, "a counted change of sixteen", own.cas, 16 * [(2, 0, 1)]))
        same(told, "a change has up to 15 entries beside its count, not 16", "what it says")
        error = raises(mondlexi.Unknown, "a counted change of a tenant that is down", own.cas, [(2, 3, 4)])
        same(type(error.__cause__), mondlexi.Fault, "the cause of a counted change that is unknown")
    lines = "".join(f"free{k:<12} {4096:4} {32:2} {64:2} {k:2} {'down' if k else 'up'}\n" for k in range(10, 26))
    with clients.Administrator(Peers(["OK ADMIN\n", f"{lines}free 0\n", "BYE\n"]).at) as administrator:
        report = administrator.report()
        same((len(report.tenants), report.free), (16, 0), "a full report")
        same(report.tenants[15], mondlexi.TenantReport("free25", 4096, 32, 64, 25, False), "its last tenant")


def try_an_interrupt(clients):
    """What interrupts a call ends the connection, so that no later call takes its reply."""
    with clients.Client(Peers(["OK 9\n", "YES\n", SILENT], VALUE).at, "t") as client:
        with mock.patch.object(client._session._link, "receive", side_effect=KeyboardInterrupt):
            with contextlib.suppress(KeyboardInterrupt):
                wrong(f"cas that is interrupted: {client.cas([(0, 1, 2)])}")
        raises(mondlexi.Lost, "cas after an interrupt", client.cas, [(0, 1, 2)])
        same(client.get(7), 5, "get after an interrupt")


def try_refused(clients):
    """A client that is refused leaves nothing open, although its exception is kept. An administrator hears too that a server is full."""
    for kind in (lambda at: clients.Client(at, "t"), clients.Administrator):
        peers = Peers(["ERR 5\n", SILENT])
        error = raises(mondlexi.Refused, "a client that is refused", kind, peers.at)
        peers.heard()
        same(peers.thread.is_alive(), False, f"the connection of a client that was told {error}")
        for texts in ([], [""], [RESET]):
            raises(mondlexi.Full, f"a server that says {texts}", kind, Peers(texts).at)


def answer_of(body, status="200 OK", length=None):
    """What a server of pages is sent, three lines of a request, and its answer by HTTP."""
    length = len(body) if length is None else length
    return ["", "", f"HTTP/1.1 {status}\r\nContent-Length: {length}\r\nConnection: close\r\n\r\n{body}"]


def try_snapshots(clients):
    """Answers that are right, broken, wrong or late. At a server scripts/check-http tries it."""
    pages = Peers(answer_of(PAGE))
    same(clients.snapshot(pages.at, "t", timeout=PATIENCE), [5, 7], "a snapshot")
    same(pages.heard(), [["GET /tenants/t/words HTTP/1.0", f"Host: {pages.at}", ""]], "what is sent for it")
    whole = answer_of(PAGE)[2]
    for what, answer in (("no answer", ""), ("half a head", whole[:30]), ("half of the words", whole[:-9]), ("another protocol", "ERR 2\n"),
                         ("a word too few", answer_of(PAGE.replace("word 1 7\n", ""))[2]), ("another page", answer_of("ok\n")[2]),
                         ("a word twice", answer_of(f"{PAGE}word 1 7\n")[2])):
        raises(mondlexi.Lost, what, clients.snapshot, Peers(["", "", answer]).at, "t", timeout=PATIENCE)
    raises(mondlexi.Fault, "a tenant that is down", clients.snapshot, Peers(answer_of("", "503 Service Unavailable")).at, "t")
    error = raises(mondlexi.Refused, "no tenant", clients.snapshot, Peers(answer_of("", "404 Not Found")).at, "u")
    same((error.line, error.number), ("GET /tenants/u/words", 404), "what is refused")
    raises(mondlexi.Lost, "an answer that does not end", clients.snapshot, Peers([*answer_of(PAGE, length=999), SILENT]).at, "t", timeout=0.2)
    raises(mondlexi.Lost, "a silent server", clients.snapshot, Peers([SILENT]).at, "t", timeout=0.2)
    raises(mondlexi.Lost, "nobody there", clients.snapshot, "unix:nobody", "t")
    for error, where, tenant, seconds in WRONG_SNAPSHOTS:
        raises(error, f"a snapshot of {where!r}, {tenant!r}, {seconds!r}", clients.snapshot, where, tenant, timeout=seconds)


def try_peers(clients, folder):
    """What no server says today, or not at will, is said by peers; and where there is none."""
    try_connections(clients, folder)
    for trial in (try_a_host_of_several_addresses, try_late_replies, try_reads_within, try_what_is_told, try_an_interrupt, try_refused, try_snapshots):
        trial(clients)
