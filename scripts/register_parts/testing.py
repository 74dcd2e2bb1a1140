"""Finds the tests that call a function, by names alone.

Used by: page.py, for the tests in docs/REGISTER.md. If anything else is found than before, run scripts/register.
"""


class Tests:
    """The tests of all crates, and the functions that each of them calls, itself or by helpers of its crate."""

    def __init__(self, crates):
        self.calls = {}
        for crate in crates:
            self.read(crate)

    def read(self, crate):
        """Takes the tests of a crate, with what they call: whether a helper does, and what the call names."""
        functions = [f for source in crate.sources for f in source.functions]
        by_name = {}
        for function in functions:
            by_name.setdefault(function.name, []).append(function)
        for test in functions:
            if test.is_test:
                reached = [test]
                # (the list grows meanwhile)
                for function in reached:
                    reached += [helper for helper in helped(function, by_name) if helper not in reached]
                    for call in function.calls:
                        found = (function is not test, test.name, function.source, call)
                        self.calls.setdefault(call[2], []).append(found)

    def of(self, function):
        """The tests that call a function: those that do so themselves, and those whose helpers do."""
        found = {}
        for by_helper, test, source, call in self.calls.get(function.name, []):
            if is_call_of(function, source, call):
                found[test] = found.get(test, True) and by_helper
        return sorted(test for test in found if not found[test]), sorted(test for test in found if found[test])


def helped(caller, by_name):
    """The functions of its own crate that a function calls, in the order of their places."""
    found = []
    for is_method, path, name in caller.calls:
        for helper in by_name.get(name, []):
            owner = helper.owner.name if helper.owner else ""
            if path == "Self" and caller.owner:
                path = caller.owner.name
            module = helper.source.path.rsplit("/", 1)[-1][:-3]
            if is_method and owner or path and path in (owner, module) or not (is_method or path or owner):
                found.append(helper)
    return sorted(found, key=lambda f: (f.source.path, f.start))


def is_call_of(function, source, call):
    """Whether a call in a source can be one of this function, judged by names."""
    is_method, path, _ = call
    crate = function.source.crate
    if crate not in source.crates_named:
        return False
    if is_method:
        return function.owner is not None
    if path:
        return path in (function.owner.name if function.owner else crate, function.source.path.rsplit("/", 1)[-1][:-3])
    return function.owner is None and all(f.name != function.name or f is function for f in source.functions)
