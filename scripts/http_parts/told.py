"""What a server's figures tell of its clients and its disk.

Used by: scripts/check-http. It asks for figures by their names in docs/HTTP.md: one that gets another name gets it here too.
"""
import re
import threading
import time
from typing import List, NamedTuple, Tuple

from lib.checks import PATIENCE, Wrong, each, same, until
from lib.served import Client, Served, connected, heard

from .server import figures, get, status_page, statuses

YES_CALLS = {"write": 4, "sync": 4}
"""The calls on its file of a change of one entry that is answered YES, alone."""
CROWD = 1000
SAMPLE_SECONDS = 15
"""How many seconds lie between two samples of the curves, at least."""
SOME_CHANGES = 100
RIGHT, SECONDS = 180, 5
"""How far to the right a curve ends, which is now, and how many seconds one step is: a quarter of an hour in all."""
CURVE = re.compile(r'<td>(\d+) \(most (\d+)\) <svg [^>]*><path [^>]*/><polyline points="([0-9, ]*)"/></svg></td>')


class Curve(NamedTuple):
    """A curve of the status page: its figure now, its highest one, and its points, each by how far it is to the right, and how far down."""
    last: int
    most: int
    points: List[Tuple[int, int]]


def until_none_is_served(server: Served) -> None:
    until(lambda: figures(server.pages).of("mondlexi_connections_served") == 0, "connections are served that have ended")


def of_one_client(server: Served) -> None:
    """The requests of one client, by kind and reply, its device calls, its bytes, and why it was closed."""
    before = figures(server.pages)
    client = Client(server.port, "a")
    for line, reply in (("GET 0", "VAL 0"), ("CAS 0:0:1", "YES"), ("CAS 0:0:1", "NO 0 1"), ("GET 0", "VAL 1"), ("CAS 0:1:0", "YES")):
        same(client.ask(line), reply, line)
    same(client.ask("QUIT"), "BYE", "QUIT")
    client.end()
    until(lambda: figures(server.pages).of("mondlexi_connections_closed_total", reason="quit") == 1, "the connection is not closed")
    after = figures(server.pages)

    def grew(metric: str, **labels: str) -> float:
        return after.of(metric, **labels) - before.of(metric, **labels)

    for kind, reply, count in (("GET", "VAL", 2), ("CAS", "YES", 2), ("CAS", "NO", 1), ("CAS", "BUSY", 0), ("GET", "FAULT", 0)):
        same(grew("mondlexi_requests_total", tenant="a", kind=kind, reply=reply), count, f"{kind} {reply}")
        same(grew("mondlexi_requests_total", tenant="b", kind=kind, reply=reply), 0, f"{kind} {reply} of another tenant")
    same(grew("mondlexi_request_seconds_count", tenant="a", kind="CAS"), 3, "the times of changes")
    for call, count in YES_CALLS.items():
        same(grew("mondlexi_device_seconds_count", tenant="a", call=call), 2 * count + 1, f"the times of each {call}")
        same(grew("mondlexi_device_failures_total", tenant="a", call=call), 0, f"failed calls {call}")
    if not grew("mondlexi_device_seconds_sum", tenant="a", call="sync") > 0:
        raise Wrong("syncs took no time")
    same((grew("mondlexi_received_bytes_total"), grew("mondlexi_sent_bytes_total")), (client.sent, client.received), "bytes")
    same(grew("mondlexi_connections_total"), 1, "connections")
    same((after.of("mondlexi_connections_served"), after.of("mondlexi_connections_waiting")), (0, 0), "connections that are left")


def curves(server: Served) -> None:
    """The curves of the status page: after changes and a sample, and after another one without changes. The points are where their times are,
    and the highest one is at the top."""
    same(status_page(server).count("<svg "), 3 * 2, "the curves of two tenants")
    client = Client(server.port, "a")
    for turn in range(SOME_CHANGES):
        same(client.ask(f"CAS 5:{turn}:{turn + 1}"), "YES", "a change")
    found, moments = [], []
    for _ in range(2):
        time.sleep(SAMPLE_SECONDS + 1)
        moments.append(time.monotonic())
        found.append(rows_of(status_page(server), "a"))
    client.end()
    (made, change, sync), later = found
    if not (made.most > 0 and change.most > 0 and sync.most > 0):
        raise Wrong(f"curves after {SOME_CHANGES} changes: {found}")
    same((later[0].last, later[0].most >= made.last, len(later[0].points) > len(made.points)), (0, True, True), "a curve after no change")
    same([min(down for _, down in it.points) for it in (made, change, sync)], [0, 0, 0], f"the top of the curves {found}")
    (before, _), (now, _) = later[0].points[-2:]
    # (the server counts whole seconds)
    between = [round(moments[1] - moments[0] + more) // SECONDS for more in (-1, 1)]
    same((now, between[0] <= now - before <= between[1]), (RIGHT, True), f"where points of now and of {moments[1] - moments[0]:.1f} seconds ago are: {later}")


def rows_of(page: str, tenant: str) -> List[Curve]:
    """The curves of a tenant on the status page."""
    row = page.partition('class="recent"')[2].partition(f"<tr><td>{tenant}</td>")[2].partition("</tr>")[0]
    found = CURVE.findall(row)
    same(len(found), 3, f"curves of {tenant}")
    return [Curve(int(last), int(most), [(int(right), int(down)) for right, down in (it.split(",") for it in points.split())])
            for last, most, points in found]


def near(server: Served, limit: str, used: int, most: int, remedy: str) -> None:
    """The status page marks a limit as near, and tells what raises it."""
    row = f'<td>{limit}</td><td>{used} of {most}</td><td><meter max="{most}" value="{used}"></meter></td><td>{remedy}</td>'
    status_page(server, '<p class="near">A limit is near.</p>', f'<tr class="near">{row}</tr>')


def full_quota(server: Served) -> None:
    """Sixteen clients change words of a tenant with a quota of 1: each BUSY, YES and NO is counted, and the quota is near."""
    clients = [Client(server.port, "b") for _ in range(16)]
    replies: List[str] = []

    def change(number: int) -> None:
        for turn in range(20):
            replies.append(clients[number].ask(f"CAS {number}:{turn % 2}:{(turn + 1) % 2}").split()[0])

    crowd, most = threading.Thread(target=each, args=(16, change)), 0.0
    crowd.start()
    while crowd.is_alive():
        most = max(most, figures(server.pages).of("mondlexi_changes_under_way", tenant="b"))
    crowd.join()
    now = figures(server.pages)
    for reply in ("YES", "NO", "BUSY"):
        same(now.of("mondlexi_requests_total", tenant="b", kind="CAS", reply=reply), replies.count(reply), f"changes answered {reply}")
    same((most, now.of("mondlexi_quota", tenant="b"), "BUSY" in replies), (1, 1, True), "a full quota")
    near(server, "quota of b", 1, 1, "its number in the tenants file")
    for client in clients:
        client.end()


def many_clients(server: Served, rest: int) -> None:
    """A thousand clients are served at once, and some more wait; then all end. No limit is near before, and then the sessions are."""
    status_page(server, "<p>No limit is near.</p>")
    crowd = [Client(server.port, "a") for _ in range(CROWD)]
    waiting = [connected(server.port) for _ in range(rest)]
    until(lambda: figures(server.pages).of("mondlexi_connections_waiting") == rest, f"not {rest} connections wait")
    same(figures(server.pages).of("mondlexi_connections_served"), CROWD, "connections that are served")
    near(server, "sessions", CROWD, CROWD, "--clients, or end some by --idle")
    for client in crowd:
        same(client.ask("GET 1"), "VAL 0", "one of many clients")
    same(figures(server.pages).of("mondlexi_requests_total", tenant="a", kind="GET", reply="VAL"), CROWD, "requests of many clients")
    for connection in waiting:
        connection.close()
    for client in crowd:
        client.end()
    until_none_is_served(server)
    now = figures(server.pages)
    same(now.of("mondlexi_connections_closed_total", reason="peer_end"), CROWD + rest, "connections that their clients ended")
    same(now.of("mondlexi_connections_total"), CROWD + rest, "all connections")


def closed_for(server: Served) -> None:
    """Why connections are closed: a line too long, silence, and no session in time."""
    with connected(server.port) as long:
        long.sendall(b"x" * 5000)
        heard(long)
    with connected(server.port) as silent:
        heard(silent)
    served = [Client(server.port, "a") for _ in range(2)]
    with connected(server.port) as late:
        heard(late)
    for client in served:
        client.lines.read()
    until_none_is_served(server)
    now = figures(server.pages)
    for reason, count in (("too_long", 1), ("read_fault", 3), ("unserved", 1), ("quit", 0), ("write_fault", 0), ("memory", 0)):
        same(now.of("mondlexi_connections_closed_total", reason=reason), count, f"connections closed, {reason}")


def failing_disk(server: Served) -> None:
    """A write that fails: the tenant is down, each page says so, and there is no copy of its file. The others are up."""
    client = Client(server.port, "a")
    same(client.ask("CAS 0:0:1"), "FAULT", "a change on a disk that fails")
    same(client.ask("CAS 0:0:1"), "FAULT", "a change after that")
    client.end()
    now = figures(server.pages)
    same([now.of("mondlexi_up", tenant=name) for name in "ab"], [0, 1], "the tenants that are up")
    same(now.of("mondlexi_device_failures_total", tenant="a", call="write"), 1, "failed writes")
    same(now.of("mondlexi_requests_total", tenant="a", kind="CAS", reply="FAULT"), 2, "requests answered FAULT")
    for what in ("file", "words"):
        same(statuses(server, what), [503, 200], what)
    health = get(server.pages, "/healthz")
    same((health.status, health.body), (503, b"down a\n"), "/healthz")
    status_page(server, "Not well: a (down).", "<td>a</td><td>down</td>", "<td>b</td><td>up</td>")


def the_end(server: Served) -> None:
    """A server that ends after a connection ends its pages too, also if a client is silent there."""
    with connected(server.pages) as silent:
        time.sleep(0.2)
        Client(server.port, "a").end()
        same(server.process.wait(PATIENCE), 0, "the status of a server that ends")
        heard(silent)
