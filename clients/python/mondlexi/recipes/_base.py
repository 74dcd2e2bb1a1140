"""What all recipes share: reads and changes that outlast lost connections, and how one text serves clients of both kinds.

A recipe is a class of coroutines over a client's session. `mondlexi.recipes.aio` gives these classes to users. Beside each is one
whose calls block: over a client of `mondlexi` a coroutine never waits for an event loop, so that `run` takes it to its end.

Used by: the other files of this folder. A recipe that is added is in the lists of `mondlexi.recipes` and of its `aio`, in docs/RECIPES.md, and
in scripts/program_parts/recipes.py and scripts/check-recipes.
"""
import functools
import operator
import time
from typing import TYPE_CHECKING, Any, Callable, Coroutine, Generic, Iterable, TypeVar
from typing import Protocol as Interface

from .._protocol import MAX_VALUE, MAX_WORDS, Answer, Entry, seconds_of
from .._session import FIRST_PAUSE, Count, TenantSession, paused, run
from ..errors import Busy, Error, Lost, Refused, Unknown

if TYPE_CHECKING:
    from typing_extensions import Concatenate, ParamSpec
    Given = ParamSpec("Given")

WAIT = 30.0
"""For how many seconds a recipe connects anew and asks again, unless it is told otherwise."""
Own = TypeVar("Own")


class NoRoom(Error):
    """All words that the recipe has for this are used. Nothing was changed."""


class Damaged(Error):
    """The recipe's words are none of its layout: something else writes them, or they begin elsewhere. Nothing was changed."""


class AnyClient(Interface):
    """A client of `mondlexi` or of `mondlexi.aio`."""
    _session: TenantSession


class AnyCounted(Interface):
    """A `Counted` of one of the two."""
    _count: Count


class Recipe:
    """What each recipe has: a client's session, the address of its first word, and how long it waits for a connection."""

    def __init__(self, client: AnyClient, at: int, words: int, wait: float) -> None:
        """ValueError if the tenant hasn't so many words from `at` on, as far as that is known."""
        self._session, self._at, self._wait = client._session, operator.index(at), seconds_of("wait", wait, True)
        has = self._session.words or MAX_WORDS
        if not 0 <= self._at <= has - words:
            raise ValueError(f"the words {at} to {at + words - 1} are wanted, of a tenant with the addresses 0 to {has - 1}")

    async def _resent(self, entries: Iterable[Entry]) -> bool:
        """Whether a change of which no state comes back was made."""
        return await resent(self._session, entries, self._wait)


def in_range(name: str, number: int, least: int, most: int) -> int:
    """This number, if it is in range. Else ValueError or TypeError, with the name in the text."""
    number = operator.index(number)
    if not least <= number <= most:
        raise ValueError(f"{name} is from {least} to {most}, not {number}")
    return number


def value_in_range(name: str, value: int) -> int:
    """This value, if a word can have it."""
    return in_range(name, value, 0, MAX_VALUE)


async def resent(session: TenantSession, entries: Iterable[Entry], wait: float) -> bool:
    """Sends a change until it is answered. `mondlexi.recipes.resent` says for which changes, and what it tells."""
    asked, is_unsure, is_broken = list(entries), False, False
    pause, end = FIRST_PAUSE, time.monotonic() + wait
    while True:
        try:
            if is_broken:
                await session.reconnect(max(0.0, end - time.monotonic()))
                is_broken = False
            if await session.cas(asked):
                return True
            return is_unsure and await _has_new_values(session, asked)
        except Error as error:
            is_unsure = is_unsure or not isinstance(error, (Busy, Lost, Refused))
            is_broken = isinstance(error, (Lost, Unknown))
            if not is_broken and not isinstance(error, Busy) or time.monotonic() >= end:
                raise Unknown(f"a change that was sent again is undecided: {error}") if is_unsure else error from error
            pause = await paused(session, pause, end, error)


async def _has_new_values(session: TenantSession, entries: Iterable[Entry]) -> bool:
    """Whether the words have the new values of these entries."""
    return await session.get_many([address for address, _, _ in entries]) == [new for _, _, new in entries]


class Blocking(Generic[Own]):
    """A recipe whose calls block."""

    def __init__(self, recipe: Own) -> None:
        self._recipe = recipe


def blocking(method: "Callable[Concatenate[Own, Given], Coroutine[Any, Any, Answer]]") \
        -> "Callable[Concatenate[Blocking[Own], Given], Answer]":
    """A method of a `Blocking` that does what this coroutine of its recipe does."""
    @functools.wraps(method)
    def call(self: Blocking[Own], /, *arguments: "Given.args", **named: "Given.kwargs") -> Answer:
        return run(method(self._recipe, *arguments, **named))
    return call
