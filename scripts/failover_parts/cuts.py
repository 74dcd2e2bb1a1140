"""What a loss of power at any moment may leave of a tenant's file, on one replica alone: opened by mwserve and judged, as scripts/soak does. All
replicas were there, so each has what was answered YES until then.

Used by: scripts/check-failover.
"""
import random
from pathlib import Path
from typing import List, Sequence

from program_parts.common import MWINIT, MWSERVE
from soak_parts.power import Image, Moment, Opened, Power, plain_of
from soak_parts.recording import random_image
from soak_parts.server import Programs, Tenant

from .bricks import RecordedFile, Recorder
from .hosts import Wrong
from .keepers import FILE
from .load import QUOTA, TENANT, WORDS, Load

MOMENTS = 60
"""How many moments of each record are tried."""
TORN = 2
"""How many images of a moment have torn writes."""


def file_of(recorder: Recorder) -> RecordedFile:
    """The tenant's file that was written to."""
    found = [it for it in recorder.files if it.path.name == FILE and it.calls.writes]
    if len(found) != 1:
        raise Wrong(f"the replica of {recorder.host.name} wrote to {[str(it.path) for it in found]}")
    return found[0]


def moments_of(recorder: Recorder, load: Load, dice: random.Random, lies: bool) -> List[Moment]:
    """Some moments, each just before a call on the tenant's file."""
    file, tenant = file_of(recorder), Tenant(TENANT, WORDS, QUOTA, QUOTA)
    calls = [it for it in (*file.calls.writes, *file.calls.syncs) if it.at > recorder.since]
    requests = sorted(load.requests, key=lambda it: it.sent)
    return [Moment(tenant, load.first, requests, it.at - recorder.ahead, file.calls.disk(file.before, it.begun, lies))
            for it in dice.sample(calls, min(MOMENTS, len(calls)))]


def images_of(moment: Moment, dice: random.Random) -> List[Image]:
    """What may be left then: all that was not synced lost, all of it there, and torn."""
    return plain_of(moment) + [moment.image(random_image(moment.disk, dice)) for _ in range(TORN)]


def opened(recorders: Sequence[Recorder], load: Load, folder: Path, dice: random.Random, lies: bool = False) -> Opened:
    """Opens images of these records. With `lies` the replicas' syncs did nothing, which must be found."""
    room = folder / ("lies" if lies else "cuts")
    room.mkdir()
    power = Power(Programs(MWINIT, MWSERVE, None), room, dice)
    for recorder in recorders:
        moments = moments_of(recorder, load, dice, lies)
        power.opened.moments_tried += len(moments)
        power.open_all([image for moment in moments for image in images_of(moment, dice)], len(recorders) * MOMENTS * (2 + TORN))
    return power.opened
