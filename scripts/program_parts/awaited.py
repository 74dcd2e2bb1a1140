"""The client for asyncio with calls that block: what tries `mondlexi` tries `mondlexi.aio` by it, call for call.

Used by: scripts/check-counts, scripts/check-programs, client_parts/play.py. The modules beside it that take `clients` are given this one or
`mondlexi`. A class that the client gains is added here too. What only asyncio has is tried in tasks.py.
"""
import asyncio
import atexit

from .common import PATIENCE

import mondlexi.aio  # noqa: E402
import mondlexi.recipes.aio  # noqa: E402

LOOP = asyncio.new_event_loop()
atexit.register(LOOP.close)
for _kind in (mondlexi.aio.Client, mondlexi.aio.Administrator):
    _kind.__init__.__kwdefaults__["timeout"] = PATIENCE


def await_it(work):
    """What this gives. The loop also closes what was dropped meanwhile."""
    try:
        return LOOP.run_until_complete(work)
    finally:
        LOOP.run_until_complete(asyncio.sleep(0))


class Blocking:
    """A client, a count or a recipe for asyncio, whose calls block."""

    def __init__(self, awaited):
        self.awaited = awaited

    def __enter__(self):
        return self

    def __exit__(self, *raised):
        await_it(self.awaited.__aexit__(*raised))

    def __getattr__(self, name):
        found = getattr(self.awaited, name)
        return blocking(found) if callable(found) else found


def blocking(call):
    """A call that is awaited, as one that blocks."""
    return lambda *arguments, **named: await_it(call(*map(plain, arguments), **named))


def plain(argument):
    """An argument as the client for asyncio takes it."""
    return argument.awaited if isinstance(argument, Blocking) else argument


def maker(kind, first=None):
    """What makes objects of this kind, and then makes this call of theirs."""
    def make(*arguments, **named):
        made = Blocking(kind(*map(plain, arguments), **named))
        if first:
            await_it(first(made.awaited))
        return made
    return make


class Recipes:
    """`mondlexi.recipes.aio`, whose calls block."""

    def __getattr__(self, name):
        found = getattr(mondlexi.recipes.aio, name)
        return maker(found) if isinstance(found, type) else blocking(found)


Client = maker(mondlexi.aio.Client, mondlexi.aio.Client.__aenter__)
Administrator = maker(mondlexi.aio.Administrator, mondlexi.aio.Administrator.__aenter__)
Counted = maker(mondlexi.aio.Counted, mondlexi.aio.Counted.begin)
snapshot = blocking(mondlexi.aio.snapshot)
recipes = Recipes()
