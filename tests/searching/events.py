"""The events of a list, and the line that plays each."""
import dataclasses
import enum
import typing

from harness.plain import OPEN_GATE, READS
from harness.words import request_text

WORKERS = 64


class Side(enum.Enum):
    """Which of the keeper's two writers, as a script names them."""
    LOG = "log"
    CHECKPOINT = "ckpt"


@dataclasses.dataclass(frozen=True)
class Fill:
    """What pending bytes hold after a stop, or what is read where a write failed.

    Chosen bytes go to the pending bytes in their order, and come with a length for each file.
    """
    word: str
    chosen: bytes = None
    lengths: tuple = ()

    @classmethod
    def of_byte(cls, byte):
        return cls(f"{byte:02X}")

    @classmethod
    def of_bytes(cls, chosen, lengths):
        return cls("-".join((chosen.hex().upper(), *map(str, lengths))), chosen, lengths)

    def torn_open(self, kept_open, is_open):
        """Whether a gate reads open behind a write that was to open it, or to close it, and failed."""
        if self.chosen is not None:
            return self.chosen[0] == OPEN_GATE if self.chosen else is_open
        return {OLD.word: kept_open, NEW.word: is_open}.get(self.word, self == OPENS)

    def left_open(self, kept_open, reads_open):
        """How a stop may leave a gate. Of chosen bytes it isn't looked which of them is the gate's."""
        if self.chosen is not None:
            return False, True
        return (self.torn_open(kept_open, reads_open),)


OLD, NEW, OPENS = Fill("old"), Fill("new"), Fill.of_byte(OPEN_GATE)


@dataclasses.dataclass(frozen=True)
class Event:
    """What happens to a store. `kind` names its row in the table of counts."""
    kind: typing.ClassVar[str]

    @property
    def line(self):
        """The line that plays it."""
        return self.kind


@dataclasses.dataclass(frozen=True)
class Old(Event):
    kind = "old"


@dataclasses.dataclass(frozen=True)
class Open(Event):
    stripes: int
    fails_at: int = None

    @property
    def kind(self):
        return "open" if self.fails_at is None else "open with a failing call"

    @property
    def line(self):
        return f"open {self.stripes}" + ("" if self.fails_at is None else f" fail {self.fails_at}")


@dataclasses.dataclass(frozen=True)
class OfWorker(Event):
    """An event of a worker."""
    worker: int
    verb: typing.ClassVar[str]

    @property
    def line(self):
        return f"{self.verb} {self.worker}"


@dataclasses.dataclass(frozen=True)
class Start(OfWorker):
    """A worker begins a change or a read: its method, its key, its arguments."""
    request: tuple
    verb = "start"

    @property
    def kind(self):
        return "read" if self.request[0] in READS else "change"

    @property
    def line(self):
        return f"{super().line} {request_text(*self.request)}"


@dataclasses.dataclass(frozen=True)
class Step(OfWorker):
    """The next step of a worker's walk."""
    kind = verb = "step"


@dataclasses.dataclass(frozen=True)
class Release(OfWorker):
    """A worker begins to release the reply that it holds."""
    kind = verb = "release"


@dataclasses.dataclass(frozen=True)
class Sweep(Event):
    """The keeper begins a sweep, or goes on with one that found a stripe held."""
    kind = "sweep"


@dataclasses.dataclass(frozen=True)
class KeeperStep(Event):
    """The next step of a sweep or a capture."""
    kind, line = "keeper step", "keep"


@dataclasses.dataclass(frozen=True)
class Stage(Event):
    most: int
    kind = "stage"

    @property
    def line(self):
        return f"stage {self.most}"


@dataclasses.dataclass(frozen=True)
class Device(Event):
    """The next device call of a side. It fails if there is a fill, which says what is read then."""
    side: Side
    fill: Fill = None

    @property
    def kind(self):
        call = "log call" if self.side is Side.LOG else "checkpoint call"
        return f"failing {call}" if self.fill else call

    @property
    def line(self):
        return f"{self.side.value} fail {self.fill.word}" if self.fill else f"{self.side.value} ok"


@dataclasses.dataclass(frozen=True)
class Publish(Event):
    kind = "publish"


@dataclasses.dataclass(frozen=True)
class Fail(Event):
    kind = "fail"


@dataclasses.dataclass(frozen=True)
class Begin(Event):
    kind = "begin"


@dataclasses.dataclass(frozen=True)
class Capture(Event):
    """The capture of a stripe begins."""
    stripe: int
    kind = "capture"

    @property
    def line(self):
        return f"capture {self.stripe}"


@dataclasses.dataclass(frozen=True)
class Seal(Event):
    kind = "seal"


@dataclasses.dataclass(frozen=True)
class Stop(Event):
    """The machine stops: between device calls, or within the next one of a side."""
    side: Side
    fill: Fill

    @property
    def kind(self):
        if self.side is None:
            return "stop between calls"
        return "stop within a log call" if self.side is Side.LOG else "stop within a checkpoint call"

    @property
    def line(self):
        return f"stop-in {self.side.value} {self.fill.word}" if self.side else f"stop {self.fill.word}"


@dataclasses.dataclass(frozen=True)
class Leave(Event):
    kind = "leave"
