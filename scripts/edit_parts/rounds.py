"""Tries the wrong bodies of a crate, as many at once as change different functions, and tells which are refused.

Used by: scripts/check-wrong-bodies. It does the steps 2 to 4 of that script's head, which says when an edit counts as refused: change both.
"""
import contextlib
from dataclasses import dataclass
from typing import Dict, FrozenSet, Iterable, List

from register_parts.source import Source

from .edits import BadEdit, Edit, Place, apply, places_of
from .reports import TAKEN_AWAY, Report
from .room import Room

WIDTH = 200
"""So many characters of a reason are shown."""
TOOK_AWAY = "only a proof file names what the edit took away"


@dataclass(frozen=True)
class Found:
    """Whether an edit is refused, as it must be, and why, or why not."""
    is_refused: bool
    why: str


class Unclear(Exception):
    """A check tells nothing of its edits, as when a fault of one hides the others."""


class Trials:
    """The trials of a crate's edits."""

    def __init__(self, room: Room, edits: List[Edit], sources: Dict[str, Source]):
        self.room, self.edits = room, edits
        self.places: Dict[Edit, FrozenSet[Place]] = {it: places_of(it, sources) for it in edits}

    def rounds(self) -> List[List[Edit]]:
        """The edits by rounds. Those of a round change different functions; one that changes anything else has its own."""
        found: List[List[Edit]] = []
        for edit in self.edits:
            fits = (it for it in found if self.fits(edit, it))
            at = next(fits, None) if self.places[edit] else None
            found.append([edit]) if at is None else at.append(edit)
        return found

    def fits(self, edit: Edit, others: List[Edit]) -> bool:
        """Whether an edit can be tried beside these: it changes other functions, and its text is still there once after theirs."""
        taken = [self.places[it] for it in others]
        with contextlib.suppress(BadEdit):
            return all(taken) and not self.places[edit] & frozenset().union(*taken) and bool(self.texts([*others, edit]))
        return False

    def texts(self, edits: List[Edit]) -> Dict[str, str]:
        """The texts that these edits change."""
        texts: Dict[str, str] = {}
        for edit in edits:
            apply(edit, self.room.unedited, texts)
        return texts

    def run(self) -> Dict[Edit, Found]:
        """Tries all, with a line for each. What a round doesn't clearly refuse is tried again alone."""
        found: Dict[Edit, Found] = {}
        for edits in self.rounds():
            refused = self.refused_in_round(edits) if len(edits) > 1 else {}
            for edit in edits:
                found[edit] = refused.get(edit) or self.tried_alone(edit)
                tell(edit, found[edit])
        if not self.room.check({}).is_proved:
            why = "without an edit it is not proved over what these checks kept, so none of them counts"
            print(f"{self.room.crate.name}: {why}", flush=True)
            return {edit: Found(False, why) for edit in self.edits}
        return found

    def refused_in_round(self, edits: List[Edit]) -> Dict[Edit, Found]:
        """Those of a round that are clearly refused. Where one hides others, as it changes what they call, these are tried on."""
        found: Dict[Edit, Found] = {}
        left = edits
        while len(left) > 1:
            texts = self.texts(left)
            report = self.room.check(texts)
            try:
                stop_if_unclear(report, texts)
                now = self.clearly_refused(left, report)
            except Unclear as unclear:
                print(f"{self.room.crate.name}: edit by edit, since a round of {len(left)} tells nothing: {unclear}", flush=True)
                break
            found.update(now)
            left = [it for it in left if now and it not in now and self.lines_of(it, report.not_tried())]
        return found

    def clearly_refused(self, edits: List[Edit], report: Report) -> Dict[Edit, Found]:
        """The edits whose functions are refused, if no other function is."""
        names = {edit: self.refused_functions(edit, report) for edit in edits}
        others = set(report.refused()).difference(*names.values())
        if others:
            raise Unclear(f"others are not proved: {', '.join(sorted(others))}")
        told = {edit: reason_of(own, report) for edit, own in names.items()}
        return {edit: Found(True, why) for edit, why in told.items() if why}

    def lines_of(self, edit: Edit, names: Iterable[str]) -> List[str]:
        """Those of these functions that the edit changes."""
        return [name for name in names if any(place.is_named_by(name) for place in self.places[edit])]

    def refused_functions(self, edit: Edit, report: Report) -> List[str]:
        """Those functions that the edit changes whose proof is refused. The report has to name each that it changes."""
        for place in self.places[edit]:
            if not any(place.is_named_by(it) for it in report.functions):
                raise Unclear(f"the check has no line on {place.module} {place.name}, which {edit.name} changes")
        return self.lines_of(edit, report.refused())

    def tried_alone(self, edit: Edit) -> Found:
        """Tries one edit."""
        try:
            texts = self.texts([edit])
            report = self.room.check(texts)
            stop_if_unclear(report, texts)
            if report.is_proved:
                return Found(False, "the crate is still proved")
            if not self.places[edit]:
                reason = first_reason(report.reasons())
                return Found(bool(reason), reason or TOOK_AWAY)
            names = self.refused_functions(edit, report)
        except (BadEdit, Unclear) as fault:
            return Found(False, str(fault))
        if not names:
            return Found(False, f"its function is proved, and only others aren't: {', '.join(report.refused())}")
        reason = reason_of(names, report)
        return Found(bool(reason), reason or f"{names[0]}: {TOOK_AWAY}")


def first_reason(reasons: List[str]) -> str:
    """The first of these reasons; nothing if it is only that a proof file names what isn't there."""
    return next((it[:WIDTH] for it in reasons if not TAKEN_AWAY.match(it)), "")


def reason_of(names: List[str], report: Report) -> str:
    """Why these functions are refused."""
    reason = first_reason([it for name in names for it in report.reasons_of(name)])
    return f"{names[0]}: {reason}" if reason else ""


def tell(edit: Edit, found: Found) -> None:
    """Prints the line of an edit."""
    print(f"{edit.label()}: {'refused, as it must be' if found.is_refused else 'NOT REFUSED'}: {found.why}", flush=True)


def stop_if_unclear(report: Report, texts: Dict[str, str]) -> None:
    """Stops at a report that says nothing of contracts."""
    if report.stale():
        raise Unclear(f"the kept work of a library can't be used: {report.stale()[:WIDTH]}")
    if report.unread(texts):
        raise Unclear(f"the prover can't read the text: {report.unread(texts)[:WIDTH]}")
    if not report.is_verdict:
        first = next((it for it in report.lines if "error" in it), report.last)
        raise Unclear(f"it did not reach the prover: {first[:WIDTH]}")
