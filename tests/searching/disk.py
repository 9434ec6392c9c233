"""How the files of a store and their writers stand."""
import dataclasses
import enum

from harness.plain import KEY_LIMIT
from searching.events import NEW, Side
from searching.outcomes import (SKIPPED, TOO_EARLY, WRONG_PHASE, Call, CallKind, Outcome, Tally, Way)

# The most bytes of a key in a log of version 01.
OLD_KEY_LIMIT = 255
LOGS = 2


class Log(enum.Enum):
    """What the log's writer has done last, as it is printed."""
    IDLE = "Idle"
    HEADER = "Header"
    HEADER_WRITTEN = "HeaderWritten"
    STAGED = "Staged"
    WRITTEN = "Written"
    SYNCED = "Synced"
    OPENED = "Opened"


class Checkpoint(enum.Enum):
    """What the checkpoint's writer has done last, or is to do next, as it is printed."""
    GATE = "Gate"
    GATE_WRITTEN = "GateWritten"
    GATE_SYNCED = "GateSynced"
    READY = "Ready"
    STAGED = "Staged"
    HEADER = "Header"
    HEADER_WRITTEN = "HeaderWritten"
    HEADER_SYNCED = "HeaderSynced"
    OPENED = "Opened"
    SEALED = "Sealed"


# Of each phase the device call that is due, and the phase behind it.
LOG_CALLS = {
    Log.HEADER: (CallKind.LOG_HEADER, Log.HEADER_WRITTEN),
    Log.HEADER_WRITTEN: (CallKind.LOG_SYNC, Log.STAGED),
    Log.STAGED: (CallKind.FRAME, Log.WRITTEN),
    Log.WRITTEN: (CallKind.LOG_SYNC, Log.SYNCED),
    Log.SYNCED: (CallKind.LOG_GATE, Log.OPENED),
    Log.OPENED: (CallKind.LOG_SYNC, Log.IDLE),
}
CHECKPOINT_CALLS = {
    Checkpoint.GATE: (CallKind.GATE_CLOSE, Checkpoint.GATE_WRITTEN),
    Checkpoint.GATE_WRITTEN: (CallKind.CHECKPOINT_SYNC, Checkpoint.GATE_SYNCED),
    Checkpoint.GATE_SYNCED: (CallKind.ZEROS, Checkpoint.READY),
    Checkpoint.STAGED: (CallKind.SECTION, Checkpoint.READY),
    Checkpoint.HEADER: (CallKind.CHECKPOINT_HEADER, Checkpoint.HEADER_WRITTEN),
    Checkpoint.HEADER_WRITTEN: (CallKind.CHECKPOINT_SYNC, Checkpoint.HEADER_SYNCED),
    Checkpoint.HEADER_SYNCED: (CallKind.SEAL_GATE, Checkpoint.OPENED),
    Checkpoint.OPENED: (CallKind.CHECKPOINT_SYNC, Checkpoint.SEALED),
}
# The writes that open a gate, or close one.
OPENS_GATE = {CallKind.LOG_GATE: True, CallKind.GATE_CLOSE: False, CallKind.SEAL_GATE: True}


@dataclasses.dataclass(frozen=True)
class Gate:
    """Whether a gate is open for a read, whether it was at the last sync of its file, and whether it was written since."""
    reads_open: bool
    kept_open: bool
    is_pending: bool = False

    @classmethod
    def at_rest(cls, is_open):
        return cls(is_open, is_open)

    def synced(self):
        return Gate.at_rest(self.reads_open)

    def written(self, is_open, fill):
        """Behind a write that was to open or close it, and failed with this fill; one that was made leaves `NEW`."""
        return Gate(fill.torn_open(self.kept_open, is_open), self.kept_open, is_pending=True)

    def left(self, fill):
        """Whether a stop with this fill leaves it open: one of these."""
        return fill.left_open(self.kept_open, self.reads_open) if self.is_pending else (self.reads_open,)


@dataclasses.dataclass
class Written:
    """A checkpoint that is being written: its sections so far, and the greatest of their marks."""
    phase: Checkpoint
    sections: int = 0
    greatest: int = 0


@dataclasses.dataclass
class Disk:
    """How many changes are committed and staged, the generations of the newest log and the sealed checkpoint, the writers."""
    committed: int = 0
    staged: int = 0
    newest: int = 0
    is_old: bool = False
    key_limit: int = KEY_LIMIT
    sealed: int = 0
    log: Log = Log.IDLE
    # The newest log is to end, and the next one to follow it.
    rotates: bool = False
    checkpoint: Written = None
    log_gate: Gate = Gate.at_rest(False)
    # That of the file to which the next checkpoint goes. One that isn't there counts as open.
    other_gate: Gate = Gate.at_rest(True)

    def copy(self):
        return dataclasses.replace(self, checkpoint=self.checkpoint and dataclasses.replace(self.checkpoint))

    # ---- device calls

    def due(self, side):
        """The kind of the device call that is due on the side, and the phase behind it, or None."""
        if side is Side.CHECKPOINT:
            return CHECKPOINT_CALLS.get(self.checkpoint.phase) if self.checkpoint and not self.rotates else None
        if self.log is Log.STAGED and self.rotates:
            return CallKind.END_FRAME, Log.WRITTEN
        return LOG_CALLS.get(self.log)

    def device(self, side, fill):
        """The next device call of the side, which fails if there is a fill."""
        due = self.due(side)
        if not due:
            return SKIPPED
        (kind, phase), told = due, self.told(due[0])
        self.write(kind, fill or NEW)
        if fill:
            return Outcome(f"{told}, failed", call=Call(kind, Way.FAILED))
        if side is Side.LOG:
            self.go_on_with_log(phase)
        else:
            self.go_on_with_checkpoint(phase)
        tally = Tally.SEALED if phase is Checkpoint.SEALED else None
        return Outcome(f"{told}, {phase.value}", tally, Call(kind, Way.DONE))

    def told(self, kind):
        """A device call with the number of its file."""
        if kind.value.endswith("log") or kind in (CallKind.FRAME, CallKind.END_FRAME):
            is_next = self.log in (Log.HEADER, Log.HEADER_WRITTEN)
            return f"{kind.value}, file {LOGS + (self.newest + is_next) % 2}"
        return f"{kind.value}, file {(self.sealed + 1) % 2}"

    def others(self, kind, fill):
        """How else the disk may stand behind a failed call: a checkpoint's file that had no gate may still have none."""
        if kind is CallKind.GATE_CLOSE and fill and fill.chosen is not None:
            other = self.copy()
            other.other_gate = dataclasses.replace(self.other_gate, reads_open=True)
            yield other

    def stop_within(self, side):
        """A stop within the next call of the side: a write counts as made, a sync as not made."""
        due = self.due(side)
        if not due:
            return SKIPPED
        told = self.told(due[0])
        self.write(due[0], NEW)
        return Outcome(f"{told}, stop", call=Call(due[0], Way.STOPPED))

    def write(self, kind, fill):
        """What a write of a gate leaves to be read."""
        is_open = OPENS_GATE.get(kind)
        if kind is CallKind.LOG_GATE:
            self.log_gate = self.log_gate.written(is_open, fill)
        elif is_open is not None:
            self.other_gate = self.other_gate.written(is_open, fill)

    def go_on_with_log(self, phase):
        self.log = phase
        if phase is not Log.IDLE:
            return
        # The frame is committed, and a closed gate is behind it.
        self.log_gate = Gate.at_rest(False)
        self.committed, self.newest, self.is_old = self.with_frame()
        self.staged, self.rotates = 0, False

    def with_frame(self):
        """What is committed if the frame counts, the newest log, and its version: the frame is a batch, or ends the log."""
        if self.rotates:
            return self.committed, self.newest + 1, False
        return self.committed + self.staged, self.newest, self.is_old

    def go_on_with_checkpoint(self, phase):
        self.checkpoint.phase = phase
        if phase is Checkpoint.GATE_SYNCED:
            self.other_gate = self.other_gate.synced()
        elif phase is Checkpoint.SEALED:
            # The next checkpoint goes to the file of the one before, whose gate is open.
            self.sealed, self.checkpoint, self.other_gate = self.sealed + 1, None, Gate.at_rest(True)

    # ---- what the keeper begins

    def stage(self, run):
        """A batch of this run is staged."""
        if self.log is not Log.IDLE:
            return WRONG_PHASE
        if run:
            self.staged, self.log = run, Log.STAGED
        return Outcome(f"staged {run}")

    def begin(self):
        """A checkpoint is begun, behind a rotation if the newest log is that of the sealed one."""
        must_rotate = self.newest == self.sealed
        if self.checkpoint or (must_rotate and self.log is not Log.IDLE):
            return WRONG_PHASE
        self.checkpoint = Written(Checkpoint.GATE if self.other_gate.reads_open else Checkpoint.GATE_WRITTEN)
        if must_rotate:
            self.rotates, self.log = True, Log.HEADER
        return Outcome("begin")

    def is_next(self, number, stripes):
        """Whether the section of this stripe is the next one, and may be captured."""
        written = self.checkpoint
        is_ready = written and not self.rotates and written.phase is Checkpoint.READY
        return is_ready and number == written.sections and number < stripes

    def captured(self, mark):
        """A section with this mark was captured."""
        written = self.checkpoint
        if written:
            self.checkpoint = Written(Checkpoint.STAGED, written.sections + 1, max(written.greatest, mark))

    def seal(self, stripes, durable):
        """The checkpoint of so many stripes is to be sealed."""
        written = self.checkpoint
        if not written or written.phase is not Checkpoint.READY or written.sections != stripes:
            return WRONG_PHASE
        if durable < written.greatest:
            return TOO_EARLY
        written.phase = Checkpoint.HEADER
        return Outcome("seal")

    # ---- the end of a life

    def left(self, log_open, other_open):
        """The disk after a life that left the two gates so."""
        committed, newest, is_old = self.with_frame() if log_open else (self.committed, self.newest, self.is_old)
        seals = self.checkpoint and self.checkpoint.phase in (Checkpoint.HEADER_SYNCED, Checkpoint.OPENED)
        return Disk(committed=committed, newest=newest, is_old=is_old, sealed=self.sealed + bool(other_open and seals),
                    other_gate=Gate.at_rest(other_open))

    def stopped(self, fill):
        """Each way in which a stop with this fill may leave the disk."""
        for log_open in self.log_gate.left(fill):
            for other_open in self.other_gate.left(fill):
                yield self.left(log_open, other_open)

    def as_read(self):
        """The disk as it is read. The newest log says how long a key may be in the next life."""
        read = self.left(self.log_gate.reads_open, self.other_gate.reads_open)
        read.key_limit = OLD_KEY_LIMIT if read.is_old else KEY_LIMIT
        return read

    def sync_below(self, file):
        """An opening has synced the files with a number below this one."""
        if LOGS + self.newest % 2 < file:
            self.log_gate = self.log_gate.synced()
        if (self.sealed + 1) % 2 < file:
            self.other_gate = self.other_gate.synced()
