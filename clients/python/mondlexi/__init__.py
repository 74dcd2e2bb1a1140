"""A client of Mondlexi, a server of durable words, for Python 3.8 or later, with the standard library alone.

A *tenant* owns words at the addresses 0, 1, 2 and so on, at most 4,096 of them. Each word has a value from 0 to 2^48 - 1,
and is 0 at first. A *change* compares up to sixteen words with the values that are expected of them, and, if all are
equal, writes a new value to each: durably, and wholly or not at all.

    import mondlexi

    with mondlexi.Client("127.0.0.1:7000", "t") as client:
        counted = client.get(0)
        outcome = client.cas([(0, counted, counted + 1)])    # word 0: from the value read to one more
        if not outcome.made:
            ...                                              # word outcome.address has outcome.value

`Client` speaks for one tenant, `Administrator` asks how all tenants are. Both are told where the server listens: at a host
and a port, as "127.0.0.1:7000", "localhost:7000" or "[::1]:7000"; or, on this machine, at a local socket, as
"unix:/run/mondlexi/socket", which is a file that this process has to be allowed to write. Whoever runs the server knows.
`Counted` makes changes over a client, of which it finds out whether they were made if a reply is lost. `snapshot` gives all words
of a tenant at one moment, if the server shows its pages (`--http`). `mondlexi.recipes` has
locks, an allocator, indexes, a queue and more. `mondlexi.aio` has the same for asyncio, and `mondlexi.recipes.aio`.
`python3 -m mondlexi 127.0.0.1:7000 t` is a shell.

`help(mondlexi.Client)` has the calls. What `help` shows of the exceptions is mostly what all have: the table below says more.

A client has one connection, and holds one of the server's workers until it is closed: a server serves as many clients at
once as it has workers, and lets others wait. Threads may share a client, with what closes it or connects it anew: a lock lets
one of them call at a time. Processes may not: one that was forked makes a client of its own.

**What goes wrong.** An argument out of its range is a ValueError and one of a wrong type a TypeError, both before
anything is sent. All other failures are kinds of `Error`:

| raised  | why                                                              | after `cas` | after `Counted.cas` | the connection |
|---------|------------------------------------------------------------------|-------------|---------------------|----------------|
| Lost    | not connected; or another call than `cas` broke off or timed out | not made    | not made            | is closed      |
| Full    | a kind of Lost: a new connection was closed before any reply     |             | not made            | is closed      |
| Unknown | `cas` broke off or timed out in or after the sending             | undecided   | undecided           | is closed      |
| Busy    | the server was busy for as long as the caller has patience       | not made    | not made            | stays          |
| Fault   | the tenant's file failed; down until the server restarts         | undecided   | not made            | stays          |
| Worn    | a number of the server is used up; it has to be restarted        | undecided   | not made            | stays          |
| Refused | the server refuses the line, by a number                         | not made    | not made            | stays          |

A constructor that raises leaves nothing open. If the connection breaks, `get`, `get_many`, `stable`, `read` and `report` connect
anew and ask again, once, or as often as `reconnects` says, before they raise Lost: they change nothing. With `reads_within` those
of a `Client` do so for some seconds, also after a late reply. `cas` never does: after Lost or Unknown call `reconnect`.

*Undecided*: it was made, or it wasn't, wholly or not at all; or it is still to be made, as long as the server works on the line
that it got. Words with their old values don't show that it won't come, and one that is sent again may be made twice.

`snapshot` raises Lost, Fault and Refused, and no others of these.

`Counted` finds out, by a *count*: a word that one thread of one process alone writes, and that each of its changes moves:

    own = mondlexi.Counted(client, 7)                         # word 7 is the count
    money, mine = client.get(0), client.get(8)
    if own.cas([(0, money, money - 5), (8, mine, mine + 5)]):
        ...                                                   # made, once; otherwise it wasn't, and never will be

Whatever leaves its change undecided it raises as Unknown, and what that was is the `__cause__`: one of the others above. Then
`own.settle()` tells whether the change was made, or raises Unknown again. If `Counted.cas` raises another `Error` the change was
not made, and never will be: it was refused, or not sent because the change before it is still undecided.

A process that may die needs no note elsewhere, if its changes write what the next one has to know into words of its own, as
word 8 is here. Once the next one has made its `Counted`, an old change was made or never will be, and `get` tells which.

No count is needed for a word of one owner whose values only grow. A change that moves it is made once at most, so it may be
asked for again after any exception, once the client is connected, until `get` gives the new value:

    def fill(client, values):                                 # the words 1, 2 .. of a new tenant; word 0: how many are filled
        while (done := client.get(0)) < len(values):
            last = min(done + 15, len(values))
            client.cas([(0, done, last)] + [(1 + k, 0, values[k]) for k in range(done, last)])

A change of an owner that died may still come. So a new owner that wants another one first moves the word by a change of its
own, until one is told as made.

After `close` each call raises Lost and sends nothing, until `reconnect`. An exception from outside that interrupts a call, such as
KeyboardInterrupt, ends the connection, and a change under way is undecided. The next call of its `Counted` settles it first.
"""
# Used by: programs. A name that is added here is added to `aio` and to each client. The version is that of the programs, as
# scripts/check-programs looks.
from ._client import Administrator, Client, Counted, snapshot
from ._protocol import MAX_ENTRIES, MAX_VALUE, MAX_WORDS, Entry, Outcome, Report, TenantReport
from .errors import Busy, Error, Fault, Full, Lost, Refused, Unknown, Worn

__version__ = "0.2.0+unreleased"
"""The version of the server's programs with which this client was released."""

__all__ = [
    "Administrator", "Busy", "Client", "Counted", "Entry", "Error", "Fault", "Full", "Lost", "MAX_ENTRIES", "MAX_VALUE",
    "MAX_WORDS", "Outcome", "Refused", "Report", "TenantReport", "Unknown", "Worn", "snapshot",
]
