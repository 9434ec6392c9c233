"""What is wanted of an event, and what the table counts of it."""
import dataclasses
import enum

from harness.plain import FAILED, KEY_TOO_LONG


class CallKind(enum.Enum):
    """The kinds of device calls, by their rows in the table of counts."""
    LOG_HEADER = "header of a log"
    FRAME = "frame"
    END_FRAME = "end frame"
    LOG_GATE = "gate of a log"
    LOG_SYNC = "sync of a log"
    GATE_CLOSE = "closing of a checkpoint's gate"
    ZEROS = "zeros over a header"
    SECTION = "section"
    CHECKPOINT_HEADER = "header of a checkpoint"
    SEAL_GATE = "gate of a checkpoint"
    CHECKPOINT_SYNC = "sync of a checkpoint"
    UNKNOWN = "unknown call"


class Way(enum.Enum):
    """How a device call ends, by the words of the table."""
    DONE = "made"
    FAILED = "failed"
    STOPPED = "stops within"


@dataclasses.dataclass(frozen=True)
class Call:
    """A device call, and how it ends."""
    kind: CallKind
    way: Way


class Tally(enum.Enum):
    """What else is counted: a row of the table, and the words of a count in it."""
    OPENED = "openings", "gave a map"
    NOT_OPENED = "openings", "met their failing call"
    RELEASED = "replies", "released"
    NOT_YET = "replies", "not yet"
    GIVEN_UP = "replies", "given up"
    SEALED = "checkpoints", "sealed"
    BUSY = "refusals", "busy"
    FAILED = "refusals", "failed"
    WRONG_PHASE = "refusals", "wrong phase"
    TOO_EARLY = "refusals", "too early"
    KEY_TOO_LONG = "refusals", "key too long"


@dataclasses.dataclass(frozen=True)
class Outcome:
    """What came of an event: its text, what is counted, the device call, a released position, and the mark of a capture."""
    text: str
    tally: Tally = None
    call: Call = None
    position: int = None
    mark: int = None


CALL_FAILED = f"refused {FAILED} Failed"
SKIPPED = Outcome("skipped")
STARTED = Outcome("start")
REFUSED = Outcome(CALL_FAILED, Tally.FAILED)
WRONG_PHASE = Outcome("refused 16 WrongPhase", Tally.WRONG_PHASE)
TOO_EARLY = Outcome("refused 17 TooEarly", Tally.TOO_EARLY)
LONG_KEY = Outcome(f"refused {KEY_TOO_LONG} KeyTooLong", Tally.KEY_TOO_LONG)
