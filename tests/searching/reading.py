"""The second reading: what is wanted of each event, by the rules read plainly.

Behind a stop with chosen bytes there is more than one guess of how the disk stands, and what comes of later events tells
which is right.
"""
import re

from harness.plain import READS
from harness.words import word_of
from searching.disk import Disk
from searching.events import (Begin, Capture, Device, Fail, KeeperStep, Leave, Old, Open, Publish, Release, Seal, Stage,
                              Start, Step, Stop, Sweep)
from searching.life import Life
from searching.outcomes import LONG_KEY, REFUSED, SKIPPED, WRONG_PHASE, Outcome, Tally, Way
from searching.past import Past

OPENED = re.compile(r"open (\d+) calls (\d+)\b.*")
NOT_OPENED = re.compile(r"not opened (\d+) calls")


class Reading:
    """What is known of a schedule so far."""

    def __init__(self):
        self.past = Past()
        # How the disk may stand: at least one guess is right.
        self.disks = [Disk()]
        # The life that goes on, if one does.
        self.life = None
        # The greatest position of a released reply.
        self.released = 0
        self.is_first = True

    @property
    def committed(self):
        """How many changes are committed in this life, on which all guesses agree."""
        return self.disks[0].committed

    def wanted(self, event, found):
        """What is wanted of the event, of which this was found."""
        is_first, self.is_first = self.is_first, False
        match event:
            case Old() if is_first:
                for disk in self.disks:
                    disk.is_old = True
                return Outcome("old")
            case Open() if not self.life:
                return self.open(event, found)
            case Stop(side=None):
                self.stop(event.fill)
                return Outcome("stop")
            case _ if not self.life:
                return SKIPPED
            case Leave():
                self.life = None
                return Outcome("leave")
            case Start():
                return self.start(event, found)
            case Step():
                return self.step(event)
            case Release():
                return self.life.release(event.worker)
            case KeeperStep():
                return self.step_keeper()
            case _ if self.life.walk or isinstance(event, (Old, Open)):
                return SKIPPED
        return self.keep(event, found)

    def choose(self, decide, found):
        """The disk decides. The guesses that are left are those by which this was to be found."""
        left, outcome = [], None
        for disk in self.disks:
            decided = decide(disk)
            if decided.text == found:
                outcome = decided
                left.append(disk)
        if not left:
            return decided
        self.disks = left
        return outcome

    # ---- between lives

    def stop(self, fill):
        """The machine has stopped, and the fill decides what is left."""
        self.life = None
        left = []
        for disk in (it for disk in self.disks for it in disk.stopped(fill)):
            if disk not in left:
                left.append(disk)
        self.disks = left

    def open(self, event, found):
        """An opening, whose failing call is met or isn't."""
        fails_at = event.fails_at or 0
        if met := NOT_OPENED.fullmatch(found):
            if int(met[1]) != fails_at:
                return Outcome(f"an opening, or a failure of call {fails_at}")
            for disk in self.disks:
                disk.sync_below(fails_at - 1)
            return Outcome(found, Tally.NOT_OPENED)
        opened = OPENED.fullmatch(found)
        if not opened:
            return Outcome("an opening")
        calls, prefix = map(int, opened.groups())
        if 0 < fails_at <= calls:
            return Outcome("no opening past its failing call")
        return self.opened(event.stripes, calls, prefix)

    def opened(self, stripes, calls, prefix):
        """The store was opened with so many changes."""
        if not self.released <= prefix <= self.past.count:
            return Outcome(f"a prefix from {self.released} to {self.past.count}")
        reads = [disk.as_read() for disk in self.disks]
        self.disks = [disk for disk in reads if disk.committed == prefix]
        if not self.disks:
            return Outcome(f"prefix {reads[0].committed}")
        self.past.cut(prefix)
        self.life = Life(self.past, stripes)
        return Outcome(f"open {calls} calls {prefix}{entries_text(self.past.map.entries)}", Tally.OPENED)

    # ---- the workers

    def start(self, event, found):
        """Of a change the newest log decides how long its key may be."""
        (method, key, _), length = event.request, len(event.request[1].encode())
        if method in READS or not self.life.is_idle(event.worker):
            return self.life.start(event.worker, event.request)
        decided = self.choose(lambda disk: LONG_KEY if length > disk.key_limit else Outcome("start"), found)
        return decided if decided is LONG_KEY else self.life.start(event.worker, event.request)

    def step(self, event):
        """A reply is released at a position that is committed."""
        outcome = self.life.step(event.worker)
        if outcome.tally is Tally.RELEASED:
            if outcome.position > self.committed:
                return Outcome(f"no reply at {outcome.position}, as {self.committed} changes are committed")
            self.released = max(self.released, outcome.position)
        return outcome

    # ---- the keeper

    def step_keeper(self):
        outcome = self.life.step_keeper()
        if outcome.mark is not None:
            for disk in self.disks:
                disk.captured(outcome.mark)
        return outcome

    def keep(self, event, found):
        """What the keeper does between its walks; a device failure ends what it does with the files."""
        match event:
            case Sweep():
                return self.life.begin_sweep()
            case Publish():
                return self.life.publish(self.committed)
            case Fail():
                return self.life.fail()
        if self.life.is_broken:
            return SKIPPED if isinstance(event, Stop) else REFUSED
        return self.write(event, found)

    def write(self, event, found):
        life = self.life
        match event:
            case Stage():
                run = self.past.run_from(self.committed, event.most)
                return self.choose(lambda disk: disk.stage(run), found)
            case Begin():
                return self.choose(Disk.begin, found)
            case Seal():
                return self.choose(lambda disk: disk.seal(len(life.stripes), life.durable), found)
            case Capture():
                return self.capture(event.stripe, found)
            case Device():
                return self.device(event, found)
        outcome = self.choose(lambda disk: disk.stop_within(event.side), found)
        if outcome is not SKIPPED and outcome.text == found:
            self.stop(event.fill)
        return outcome

    def capture(self, stripe, found):
        stripes = len(self.life.stripes)
        finds = self.life.capture_finds(stripe) if stripe < stripes else WRONG_PHASE
        outcome = self.choose(lambda disk: finds if disk.is_next(stripe, stripes) else WRONG_PHASE, found)
        return outcome if outcome is WRONG_PHASE or outcome.text != found else self.life.begin_capture(stripe)

    def device(self, event, found):
        outcome = self.choose(lambda disk: disk.device(event.side, event.fill), found)
        if outcome.call and outcome.call.way is Way.FAILED:
            self.life.is_broken = True
            self.disks += [other for disk in self.disks for other in disk.others(outcome.call.kind, event.fill)]
        return outcome


def entries_text(entries):
    """The entries in rising order of their keys' bytes."""
    return "".join(f" {key}={word_of(entries[key])}" for key in sorted(entries, key=str.encode))
