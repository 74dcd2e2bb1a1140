"""What only the client for asyncio has: tasks that share it, calls that are cancelled, and that others go on while one waits.

Used by: scripts/check-programs. Nothing here passes or fails by how fast the machine is.
"""
import asyncio
import unittest.mock

from .common import PATIENCE, SILENT, Peers, same, wrong

import mondlexi.aio  # noqa: E402

VALUE = ["OK 9\n", "VAL 5\n", "BYE\n"]


def client_of(peers, timeout=PATIENCE, **named):
    return mondlexi.aio.Client(peers.at, "t", timeout=timeout, **named)


async def raises(kind, what, work):
    """As `common.raises`, of a call that is awaited."""
    try:
        given = await work
    except BaseException as error:
        if type(error) is kind:
            return
        wrong(f"{what}: {type(error).__name__} ({error}) in place of {kind.__name__}")
    wrong(f"{what}: {given!r} in place of {kind.__name__}")


async def count_together(at):
    """Tasks that share one client count in one word; two of them have counts of their changes."""
    async def count(caller):
        for _ in range(10):
            while not await caller.cas([(8, value := await client.get(8), value + 1)]):
                pass

    async with mondlexi.aio.Client(at, "t", timeout=PATIENCE) as client:
        callers = client, client, mondlexi.aio.Counted(client, 6), mondlexi.aio.Counted(client, 7)
        await asyncio.gather(*(count(caller) for caller in callers))
        same(await client.get(8), 40, "what four tasks counted")


async def lose_together():
    """Two tasks whose connection breaks: one of them connects anew, for both."""
    async with client_of(Peers(["OK 9\n", ""], ["OK 9\n", "VAL 5\n", "VAL 6\n", "BYE\n"])) as client:
        same(sorted(await asyncio.gather(client.get(1), client.get(2))), [5, 6], "two reads whose connection breaks")


async def cancel_calls():
    """A call that is cancelled, here a change, and a read by a limit of time, ends the connection. A read connects anew then, a change doesn't."""
    peers = Peers(["OK 9\n", SILENT], VALUE)
    async with client_of(peers) as client:
        change = asyncio.ensure_future(client.cas([(0, 1, 2)]))
        await asyncio.sleep(0.1)
        change.cancel()
        await raises(asyncio.CancelledError, "cas that is cancelled", change)
        await raises(mondlexi.Lost, "cas after that", client.cas([(0, 1, 2)]))
        same(await client.get(7), 5, "get after that")
    same(peers.heard()[1], ["TENANT t", "GET 7", "QUIT"], "what is sent after a change that was cancelled")
    async with client_of(Peers(["OK 9\n", SILENT], VALUE)) as client:
        await raises(asyncio.TimeoutError, "get within a limit of time", asyncio.wait_for(client.get(7), 0.1))
        same(await client.get(7), 5, "get after that")


async def cancel_a_waiting_read():
    """A read that is cancelled while it waits for its turn ends no connection."""
    peers = Peers(["OK 9\n", "", "VAL 5\nVAL 6\n", "VAL 7\n", "BYE\n"])
    async with client_of(peers) as client:
        first, second = (asyncio.ensure_future(call) for call in (client.get_many([1, 2]), client.get(3)))
        await asyncio.sleep(0)
        second.cancel()
        await raises(asyncio.CancelledError, "get that is cancelled before its turn", second)
        same((await first, await client.get(4)), ([5, 6], 7), "get_many that goes on, and get after that")
    same(len(peers.heard()[0]), 5, "the lines of this connection")


async def cancel_a_connect():
    """A client that is cancelled while it waits for its first reply leaves nothing open."""
    peers = Peers([SILENT], VALUE)
    client = client_of(peers)
    await raises(asyncio.TimeoutError, "reconnect within a limit of time", asyncio.wait_for(client.reconnect(), 0.1))
    await client.reconnect()
    same(await client.get(7), 5, "get after that")
    await client.close()
    peers.heard()


async def wait_beside_others():
    """While a call waits, for a server that is busy or for a reply, other tasks go on: here this one, which cancels it."""
    for name, argument, texts in (("cas", [(0, 1, 2)], 300 * ["BUSY\n"]), ("get", 0, [SILENT])):
        async with client_of(Peers(["OK 9\n", *texts]), patience=PATIENCE) as client:
            call = asyncio.ensure_future(getattr(client, name)(argument))
            await asyncio.sleep(0.1)
            same(call.cancel(), True, f"{name}, while another task goes on")
            await raises(asyncio.CancelledError, name, call)


async def wait_after_a_reply():
    """A limit of time for a reply that has come is no limit for the connection."""
    async with client_of(Peers(["OK 9\n", "VAL 5\n", "YES\n", "BYE\n"]), timeout=1.0) as client:
        same(await client.get(7), 5, "get")
        await asyncio.sleep(1.1)
        same(bool(await client.cas([(0, 1, 2)])), True, "cas after a silence")


async def call_before_connecting():
    """A client that was only made raises Lost, and `reconnect` connects it."""
    client = client_of(Peers(VALUE))
    for name, argument in (("get", 0), ("get_many", [0]), ("read", [0]), ("cas", [(0, 1, 2)])):
        await raises(mondlexi.Lost, f"{name} of a client that isn't connected", getattr(client, name)(argument))
    same(client.words, 0, "words of a client that isn't connected")
    await client.reconnect()
    same((client.words, await client.get(7)), (9, 5), "a client that was connected")
    await client.close()


async def cancel_a_counted_change():
    """A count that was not begun begins with the first call; after a change that was cancelled it tells whether that was made."""
    peers = Peers(["OK 9\n", "YES\n", SILENT], ["OK 9\n", "NO 5 3\n", "BYE\n"])
    async with client_of(peers) as client:
        own = mondlexi.aio.Counted(client, 5)
        same(await own.settle(), False, "settle before the first change")
        await raises(asyncio.TimeoutError, "a counted change within a limit of time", asyncio.wait_for(own.cas([(2, 0, 1)]), 0.1))
        same((await own.settle(), await own.settle()), (True, True), "settle of a change that was cancelled")
    same(peers.heard(), [["TENANT t", "CAS 5:0:1"], ["TENANT t", "CAS 5:1:2", "QUIT"]], "what is sent for a count")


def try_tasks():
    """All of these that need no server. No call may sleep while other tasks wait for it."""
    with unittest.mock.patch("time.sleep", side_effect=AssertionError("a task sleeps in place of waiting")):
        for trial in (lose_together, cancel_calls, cancel_a_waiting_read, cancel_a_connect, cancel_a_counted_change, wait_beside_others,
                      wait_after_a_reply, call_before_connecting):
            asyncio.run(asyncio.wait_for(trial(), PATIENCE))


def try_shared(server):
    """At a server."""
    asyncio.run(count_together(server.at))
