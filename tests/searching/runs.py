"""Fixed runs, each of whose device calls is cut in turn: it is stopped within, or fails and is followed by a stop."""
import dataclasses

from harness.plain import Method
from searching.events import (NEW, OLD, OPENS, Begin, Capture, Device, Fill, KeeperStep, Old, Open, Publish, Release,
                              Seal, Side, Stage, Start, Step, Stop, Sweep)
from searching.fills import spelled_batch

KEYS = ("a", "b", "c")
FILLS = (OLD, NEW, Fill.of_byte(0), OPENS, Fill.of_byte(0xFF))
ANY_BATCH = (1 << 32) - 1
LOG, CHECKPOINT = Device(Side.LOG), Device(Side.CHECKPOINT)


def put(worker):
    """A put under the key of this worker, step by step."""
    return [Start(worker, (Method.put, KEYS[worker], (1,))), *[Step(worker)] * 5]


def section(stripe):
    return [Capture(stripe), *[KeeperStep()] * 2, CHECKPOINT]


def commit(stripes):
    return [Sweep(), *[KeeperStep()] * (2 * stripes), Stage(ANY_BATCH), *[LOG] * 4]


def one_section(stripes):
    """A commit, a rotation, and the section of the first stripe."""
    return [*commit(stripes), Publish(), *ROTATION, *section(0)]


ROTATION = [Begin(), *[LOG] * 6, *[CHECKPOINT] * 3]
SEAL = [Seal(), *[CHECKPOINT] * 4]


@dataclasses.dataclass(frozen=True)
class Run:
    """A run on so many stripes: its name and its events."""
    name: str
    stripes: int
    events: list

    def calls(self):
        """The places of its device calls."""
        return [place for place, event in enumerate(self.events) if isinstance(event, Device)]

    def committed(self, place):
        """How many changes are committed and published before this place."""
        changes = [isinstance(event, Start) for event in self.events]
        published = [at for at, event in enumerate(self.events[:place]) if isinstance(event, Publish)]
        swept = [at for at, event in enumerate(self.events[:published[-1]]) if event == Sweep()] if published else []
        return sum(changes[:swept[-1]]) if swept else 0

    def fills(self, place):
        """The fills of a cut: two of them spell the batch that would be next in the newest log."""
        is_old = Old() in self.events[:place] and Begin() not in self.events[:place]
        batches = [spelled_batch(1 if is_old else 2, self.committed(place), has_gate) for has_gate in (True, False)]
        return *FILLS, *batches

    def cases(self, number, place):
        """The cases of a device call: of each its name and its events, up to an opening behind the cut."""
        side = self.events[place].side
        for fill in self.fills(place):
            for way, cut in (("stopped within", [Stop(side, fill)]), ("failed", [Device(side, fill), Stop(None, fill)])):
                name = f"{self.name}, call {number}, {way}, {fill.word}"
                yield name, [*self.events[:place], *cut, Open(self.stripes)]


RUNS = (
    Run("a batch of one change, with one committed before", 16,
        [Open(16), *put(0), *commit(16), Publish(), Release(0), Step(0), *put(1), *commit(16)]),
    Run("a rotation, the captures of a checkpoint, and its seal", 4,
        [Open(4), *put(0), *put(1), *one_section(4), *put(2), *section(1), *section(2), *section(3), *commit(4), Publish(),
         *SEAL]),
    Run("the second life of a checkpoint", 1,
        [Open(1), *put(0), *one_section(1), Seal(), CHECKPOINT, Stop(None, OPENS),
         Open(1), Begin(), *[CHECKPOINT] * 2, *section(0), *SEAL]),
    Run("a directory of version 01, up to a batch behind its checkpoint", 1,
        [Old(), Open(1), *put(0), *one_section(1), *SEAL, *put(1), *commit(1)]),
)
