"""What the keeper of a list does in a row, so that a batch or a checkpoint becomes whole."""
import enum
import itertools

from searching.events import Begin, Capture, KeeperStep, Publish, Seal, Side, Stage, Sweep

REST, LOG_CALLS, ROTATION_CALLS, FIRST_CALLS, SEAL_CALLS = 12, 4, 6, 3, 4


class Story(enum.Enum):
    """A row of parts. A part is an event, or its class if more of it is to be drawn, a side for a device call, or None."""
    REST = enum.auto()
    COMMIT = enum.auto()
    CHECKPOINT = enum.auto()

    @classmethod
    def random(cls, dice):
        return dice.pick([cls.REST] * 2 + [cls.CHECKPOINT] * 2 + [cls.COMMIT] * 5)

    def parts(self, stripes):
        """The parts, on so many stripes."""
        if self is Story.REST:
            return itertools.repeat(None, REST)
        return commit(stripes) if self is Story.COMMIT else checkpoint(stripes)


def commit(stripes):
    """A sweep, a batch, its device calls, and its count is published."""
    yield Sweep()
    yield from itertools.repeat(KeeperStep(), 2 * stripes)
    yield Stage
    yield from itertools.repeat(Side.LOG, LOG_CALLS)
    yield Publish()


def section(stripe):
    yield Capture(stripe)
    yield from itertools.repeat(KeeperStep(), 2)
    yield Side.CHECKPOINT


def checkpoint(stripes):
    """From its beginning to its seal, which is tried before a commit and after it."""
    yield Begin()
    yield from itertools.repeat(Side.LOG, ROTATION_CALLS)
    yield from itertools.repeat(Side.CHECKPOINT, FIRST_CALLS)
    for stripe in range(stripes):
        yield from section(stripe)
    yield Seal()
    yield from commit(stripes)
    yield Seal()
    yield from itertools.repeat(Side.CHECKPOINT, SEAL_CALLS)
