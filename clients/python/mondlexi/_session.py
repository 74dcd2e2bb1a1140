"""A session over any link: it connects, asks, asks again, and tells how a lost connection counts. It is written once, as
coroutines: over sockets they never wait for an event loop (`run`), over asyncio they do.

Used by: `_client` and `aio`, each with a `Link` of its own; `_pages`, `_sockets` and the recipes. What a call promises is said at
`mondlexi.Client`. When a session asks again is the same in each client: change them together, with a case in clients/cases.
"""
import enum
import random
import socket
import time
from typing import Any, ContextManager, Coroutine, Dict, Iterable, List, NamedTuple, Optional, cast
from typing import Protocol as Interface

from . import _protocol as protocol
from ._protocol import MAX_ENTRIES, Answer, Entry, Miss, Outcome, Question, Replies, Reply, Report
from .errors import Busy, Error, Full, Lost, Refused, Unknown

FIRST_PAUSE = 0.001
_LONGEST_PAUSE = 0.25
_GOODBYE_SECONDS = 1.0
MAX_RECONNECTS = 1000


def run(work: Coroutine[Any, Any, Answer]) -> Answer:
    """What this gives. Its link blocks and never waits for an event loop, so that one step is enough."""
    try:
        work.send(None)
    except StopIteration as end:
        return cast(Answer, end.value)
    raise RuntimeError("a link over sockets has waited for an event loop")


class Sleeper(Interface):
    """What can let time pass."""

    async def pause(self, seconds: float) -> None:
        """Lets so many seconds pass."""


class Link(Sleeper, Interface):
    """One connection at a time. Each method raises OSError if it fails, and socket.timeout if its time is over."""

    is_tls: bool
    """Whether TLS is spoken, so that connecting can fail because of it."""

    async def connect(self, timeout: float) -> None:
        """Connects. If it fails, or is interrupted, nothing is left open."""

    async def send(self, data: bytes, timeout: float) -> None:
        """Sends all of this."""

    async def receive(self, deadline: float) -> bytes:
        """Some of what the server has sent, or nothing if it has closed the connection."""

    async def finish(self, deadline: float) -> None:
        """Says `QUIT`, and waits until the server has read it."""

    def drop(self) -> None:
        """Closes the connection, if there is one, without a word."""

    async def turn(self) -> ContextManager[Any]:
        """Within what it gives, nobody else uses the connection. Tasks wait for it here, threads when they enter it."""


class Options(NamedTuple):
    """The seconds and the number that a client was given."""
    timeout: float
    within: float
    reconnects: int
    reads_within: float


def options_of(timeout: float, within: float, reconnects: int, reads_within: float = 0.0) -> Options:
    """These options, if they are in range. Else ValueError or TypeError."""
    if not isinstance(reconnects, int):
        raise TypeError(f"reconnects has to be a number, not {reconnects!r}")
    if not 0 <= reconnects <= MAX_RECONNECTS:
        raise ValueError(f"reconnects has to be from 0 to {MAX_RECONNECTS}")
    return Options(protocol.seconds_of("timeout", timeout, False), protocol.seconds_of("within", within, True), reconnects,
                   protocol.seconds_of("reads_within", reads_within, True))


async def paused(sleeper: Sleeper, pause: float, deadline: float, error: Exception) -> float:
    """Waits for about this many seconds, and tells the next pause. Past the deadline it raises the error."""
    left = deadline - time.monotonic()
    if left <= 0:
        raise error
    await sleeper.pause(min(left, pause * random.uniform(0.5, 1.0)))
    return min(2 * pause, _LONGEST_PAUSE)


class _State(enum.Enum):
    """Of a session: connected and greeted; without a connection because one broke, or could not be made; or closed by its
    owner, or not begun."""
    OPEN = 1
    BROKEN = 2
    CLOSED = 3


class Session:
    """A session over a link. Whatever uses the link holds its turn."""

    def __init__(self, server: str, link: Link, options: Options, greeting: Question[int]) -> None:
        self.options = options
        self.words = 0
        self._server, self._link, self._greeting = server, link, greeting
        self._state = _State.CLOSED
        self._replies = Replies()

    # Begin and end.

    async def begin(self) -> None:
        """Connects, and tries again for as long as the options say."""
        await self._begin_until(time.monotonic() + self.options.within, False)

    async def reconnect(self, within: float) -> None:
        """Ends a session that there is, and begins anew."""
        end = time.monotonic() + protocol.seconds_of("within", within, True)
        await self.close()
        await self._begin_until(end, False)

    async def pause(self, seconds: float) -> None:
        """Lets so many seconds pass. Others may use the session meanwhile."""
        await self._link.pause(seconds)

    async def close(self) -> None:
        """Ends the session and waits for the server's goodbye, a second at most."""
        with await self._link.turn():
            was_open = self._state is _State.OPEN
            self._state = _State.CLOSED
            try:
                if was_open:
                    await self._link.finish(time.monotonic() + min(self.options.timeout, _GOODBYE_SECONDS))
            except OSError:
                pass
            finally:
                self._link.drop()

    async def _begin_until(self, end: float, is_repair: bool) -> None:
        """Begins; if that fails it tries again, with growing pauses, until this moment. A repair leaves a session alone that
        somebody else has repaired or closed."""
        pause = FIRST_PAUSE
        while True:
            try:
                with await self._link.turn():
                    if not is_repair or self._state is _State.BROKEN:
                        await self._begin()
                    return
            except Lost as error:
                pause = await paused(self._link, pause, end, error)

    async def _begin(self) -> None:
        """A new connection and its greeting, in place of what there was."""
        self._drop()
        try:
            await self._link.connect(self.options.timeout)
        except OSError as error:
            kind = Full if isinstance(error, ConnectionResetError) and not self._link.is_tls else Lost
            raise kind(f"connecting to {self._server}: {error}") from error
        try:
            self.words = await self._answered(self._greeting)
        except BaseException:
            self._drop()
            raise
        self._state = _State.OPEN

    def _drop(self) -> None:
        """Closes the connection without a word."""
        self._state = _State.BROKEN
        self._replies = Replies()
        self._link.drop()

    # Ask.

    async def ask(self, question: Question[Answer], within: float = 0.0) -> Answer:
        """The answer to a question. If it can change nothing and the connection has broken, it is asked again over a new
        connection, as often as the options say; a reply that is late isn't waited for again. For `within` seconds, or for as many
        as the options say, it is asked again whatever was lost."""
        is_read, pause = question.gone is Lost, FIRST_PAUSE
        left = self.options.reconnects if is_read else 0
        end = time.monotonic() + (max(within, self.options.reads_within) if is_read else 0.0)
        while True:
            try:
                return await self._ask_once(question)
            except Lost as error:
                may_end = not left or isinstance(error.__cause__, socket.timeout)
                if self._state is _State.CLOSED or may_end and time.monotonic() >= end:
                    raise
                if may_end:
                    pause = await paused(self._link, pause, end, error)
            left = max(0, left - 1)
            await self._begin_until(max(end, time.monotonic() + self.options.within), True)

    async def _ask_once(self, question: Question[Answer]) -> Answer:
        """The answer over the connection that there is."""
        with await self._link.turn():
            if self._state is not _State.OPEN:
                why = "is closed" if self._state is _State.CLOSED else "has lost its connection"
                raise Lost(f"{question}: not sent, the client {why}")
            return await self._answered(question)

    async def _answered(self, question: Question[Answer]) -> Answer:
        """The answer. Whatever ends the exchange before its last reply closes the connection, because a late reply would be
        taken for that of the next line. The session is broken meanwhile, so that it stays so wherever this is interrupted."""
        before, self._state = self._state, _State.BROKEN
        try:
            answer = question.answer(await self._exchange(question))
        except Error:
            self._state = before
            raise
        except OSError as error:
            is_silent = self._replies.is_silent
            self._drop()
            if is_silent and isinstance(error, ConnectionError):
                raise Full(f"{question}: {error}; it had given no reply yet, as one does that is full") from error
            if isinstance(error, socket.timeout):
                why = "no reply yet, as when all sessions are taken" if is_silent else "no reply"
                raise question.gone(f"{question}: {why}, for {self.options.timeout:g} seconds") from error
            raise question.gone(f"{question}: {error}") from error
        except BaseException:
            self._drop()
            raise
        self._state = before
        return answer

    async def _exchange(self, question: Question[Answer]) -> List[Reply]:
        """Sends the lines and reads their replies."""
        replies: List[Reply] = []
        for lines in question.pieces():
            await self._link.send("".join(f"{line}\n" for line in lines).encode("ascii"), self.options.timeout)
            replies += [await self._reply(question.is_report) for _ in lines]
        self._replies.end()
        return replies

    async def _reply(self, is_report: bool) -> Reply:
        """The next reply."""
        deadline = time.monotonic() + self.options.timeout
        while True:
            reply = self._replies.reply(is_report)
            if reply is not None:
                return reply
            self._replies.take(await self._link.receive(deadline))


class TenantSession(Session):
    """A session of a tenant."""

    def __init__(self, server: str, link: Link, options: Options, tenant: str, patience: float) -> None:
        super().__init__(server, link, options, protocol.tenant_greeting(tenant))
        self._patience = protocol.seconds_of("patience", patience, True)

    async def get_many(self, addresses: Iterable[int], within: float = 0.0) -> List[int]:
        """The values of these words, each of its own moment; `within` as `ask` has it."""
        checked = [self._address(address) for address in addresses]
        return await self.ask(protocol.get(checked), within) if checked else []

    async def stable(self, addresses: Iterable[int], within: float = 0.0) -> List[int]:
        """The values of these words, once two readings, one after the other, have given the same ones."""
        asked = list(addresses)
        deadline = time.monotonic() + self._patience
        # The server answers a line before it looks at the next one, so both readings may be sent together.
        both = await self.get_many([*asked, *asked], within)
        before, values = both[:len(asked)], both[len(asked):]
        while before != values:
            if time.monotonic() >= deadline:
                raise Busy(f"{len(asked)} words changed for {self._patience} seconds")
            before, values = values, await self.get_many(asked, within)
        return values

    async def read(self, addresses: Iterable[int]) -> List[int]:
        """The values of these words at one moment."""
        asked = [self._address(address) for address in addresses]
        if not 1 <= len(set(asked)) <= MAX_ENTRIES:
            raise ValueError(f"one to {MAX_ENTRIES} different words are read at a time")
        deadline = time.monotonic() + self._patience
        different = sorted(set(asked))
        guess: Dict[int, int] = dict(zip(different, await self.get_many(different)))
        while len(guess) > 1:
            miss = await self._change(protocol.cas([(address, value, value) for address, value in guess.items()], Lost), deadline)
            if miss is None:
                break
            if time.monotonic() >= deadline:
                raise Busy(f"the words {sorted(guess)} changed for {self._patience} seconds")
            guess[miss[0]] = miss[1]
        return [guess[address] for address in asked]

    async def cas(self, entries: Iterable[Entry]) -> Outcome:
        """A change, asked again while the tenant is busy."""
        checked = protocol.checked_entries(entries, self._known_words())
        miss = await self._change(protocol.cas(checked), time.monotonic() + self._patience)
        return Outcome(True) if miss is None else Outcome(False, miss[0], miss[1])

    async def _change(self, question: Question[Miss], deadline: float) -> Miss:
        """Asks again while it is busy, up to the deadline."""
        pause = FIRST_PAUSE
        while True:
            try:
                return await self.ask(question)
            except Busy as error:
                pause = await paused(self._link, pause, deadline, error)

    def _address(self, address: int) -> int:
        """This address, if the tenant has it."""
        return protocol.checked_address(address, self._known_words())

    def _known_words(self) -> int:
        """How many words the tenant has, as the greeting said."""
        if not self.words:
            raise Lost("the client has not been connected yet")
        return self.words


class AdministratorSession(Session):
    """A session of the administrator."""

    def __init__(self, server: str, link: Link, options: Options) -> None:
        super().__init__(server, link, options, protocol.administrator_greeting())

    async def report(self) -> Report:
        """How all tenants are."""
        return await self.ask(protocol.report())


# A count

class Caller(Sleeper, Interface):
    """What a count needs of a client."""

    @property
    def words(self) -> int:
        """How many words the tenant has."""

    async def cas(self, entries: Iterable[Entry]) -> Outcome:
        """A change."""

    async def reconnect(self, within: float) -> None:
        """Connects anew."""


class _Known(NamedTuple):
    """What is known of a count: its `value`; and of the last change with it, whether it is `undecided`, and whether it was `made`,
    or, if it is undecided, may have been."""
    value: int
    undecided: bool
    made: bool


class Count:
    """A word that only this moves, and what it tells of changes. `mondlexi.Counted` says what it promises.

    A change is noted as undecided before it is sent, and as decided by one assignment once that is known. So whatever ends a
    call in the middle, an interrupt too, leaves it undecided, and the next call settles it first."""

    def __init__(self, caller: Caller, address: int, wait: float) -> None:
        self._caller, self._address, self._wait = caller, address, protocol.seconds_of("wait", wait, True)
        self._known = _Known(0, undecided=False, made=False)
        self._has_begun = False

    async def begin(self) -> None:
        """Moves the count, whatever it is, unless this has done so: no earlier change with it is made any more."""
        count = 0
        while not self._has_begun:
            value = await self._moved(count)
            if value is None:
                self._known = _Known(count + 1, undecided=False, made=False)
                self._has_begun = True
            else:
                count = value

    def announce(self) -> None:
        """The next change is the last one from now on. It isn't made yet."""
        self._known = self._known._replace(made=False)

    async def cas(self, entries: Iterable[Entry]) -> Outcome:
        """A change that moves the count by 2. Raises Unknown, from its cause, if it leaves the change undecided."""
        self.announce()
        await self._make_ready()
        count = self._known.value
        change = protocol.checked_entries(entries, self._caller.words, (self._address, count, count + 2))
        self._known = _Known(count, undecided=True, made=True)
        try:
            outcome = await self._caller.cas(change)
        except (Busy, Refused):
            self._known = _Known(count, undecided=False, made=False)
            raise
        except (Lost, Unknown):
            return Outcome(await self.settle())
        except Error as error:
            raise self._undecided(error) from error
        self._known = _Known(count + 2 * outcome.made, undecided=False, made=outcome.made)
        if outcome.address == self._address:
            raise RuntimeError(f"something else has moved the count at {self._address}")
        return outcome

    async def settle(self) -> bool:
        """Whether the last change was made. Raises Unknown, from its cause, as long as that can't be told."""
        try:
            return await self._settled()
        except Error as error:
            raise self._undecided(error) from error

    def _undecided(self, error: Error) -> Unknown:
        """What is raised if this leaves the last change undecided."""
        return Unknown(f"the last change with the count at {self._address} is undecided: {error}")

    async def _make_ready(self) -> None:
        """Begins, and settles the change before. A new one that waits for this was not sent, so it isn't Unknown."""
        try:
            await self.begin()
            await self._settled()
        except Unknown as error:
            raise Lost(f"not sent, because the count at {self._address} could not be moved: {error}") from error

    async def _settled(self) -> bool:
        """Whether the last change was made, once that is decided."""
        count, undecided, made = self._known
        if undecided:
            moved = await self._moved(count)
            value = count + 1 if moved is None else moved
            if not count < value <= count + 2:
                raise RuntimeError(f"something else has moved the count at {self._address}")
            self._known = _Known(value, undecided=False, made=made and value == count + 2)
        return self._known.made

    async def _moved(self, count: int) -> Optional[int]:
        """Moves the count from this value, by 1: None; or the other value that it has. While the tenant is busy or there is no
        connection it asks again, for `wait` seconds."""
        pause, end = FIRST_PAUSE, time.monotonic() + self._wait
        while True:
            try:
                return (await self._caller.cas([(self._address, count, count + 1)])).value
            except (Busy, Lost, Unknown) as error:
                pause = await paused(self._caller, pause, end, error)
                if not isinstance(error, Busy):
                    await self._caller.reconnect(max(0.0, end - time.monotonic()))
