"""What servers may have got of a client, byte by byte, and what is true of its calls: for search_core.py."""
import bisect
import itertools

from dchm import wire
from dchm.core import PROBE, Link
from dchm.errors import DchmError, NoMemory, NotMade, OutcomeOpen

READY, NOT_READY, NO_MEMORY = b"\0\2\1\0", b"\0\2\x87\0", b"\0\2\x87\0"


def check(holds, what):
    if not holds:
        raise AssertionError(what)


def frames_of(data):
    """The whole frames of a stream of requests, and what is behind them."""
    frames, at = [], 0
    while len(data) >= at + 2 and len(data) >= at + 2 + int.from_bytes(data[at:at + 2], "big"):
        end = at + 2 + int.from_bytes(data[at:at + 2], "big")
        frames.append(data[at:end])
        at = end
    return frames, data[at:]


class Asked:
    """A call as its caller and the servers know it."""

    def __init__(self, number, frame, deadline, is_change):
        self.number, self.frame, self.deadline, self.is_change = number, frame, deadline, is_change
        self.call, self.ends, self.is_cancelled = None, 0, False
        self.went_to, self.read_by, self.replied = set(), [], []

    def is_at(self, now):
        return not self.ends and self.deadline > now


class Stream:
    """One connection: the bytes that went, what the server has read and replied, and how much of that came."""

    def __init__(self, epoch):
        # What went, the whole requests of it, and those of which a byte went.
        self.epoch, self.went, self.frames, self.begun = epoch, b"", [], []
        self.read, self.replies, self.came, self.last_use = 0, [], 0, 0.0

    def answered(self):
        """How many replies came whole."""
        return bisect.bisect_right(list(itertools.accumulate(map(len, self.replies))), self.came)

    def is_within(self):
        """Whether a part of a reply came."""
        return self.came not in itertools.accumulate(map(len, self.replies), initial=0)

    def uncame(self):
        return b"".join(self.replies)[self.came:]

    def under_way(self):
        """How many requests were begun and have no whole reply."""
        return len(self.begun) - self.answered()


class Model:
    """All calls and all connections of one seed."""

    def __init__(self, in_flight, resends, chance):
        self.in_flight, self.resends, self.chance = in_flight, resends, chance
        self.asked, self.streams, self.by_frame, self.by_call = [], [], {}, {}

    def ask(self, seconds_frame_kind, call):
        frame, deadline, is_change = seconds_frame_kind
        asked = Asked(len(self.asked), frame, deadline, is_change)
        asked.call = call
        self.asked.append(asked)
        self.by_frame[frame] = self.by_call[id(call)] = asked

    def waiting(self):
        """The calls of which no byte went over the connection that there is."""
        begun = self.begun()
        return [asked for asked in self.asked if not asked.ends and asked not in begun]

    def begun(self):
        """The calls that are under way over the last connection, cancelled ones too."""
        stream = self.streams[-1] if self.streams else None
        return [self.by_frame[frame] for frame in stream.begun[max(1, stream.answered()):]] if stream else []

    def went(self, stream, data, count, now):
        """So much of these bytes went: whole requests of calls, in the order of the calls, each once, behind the probe."""
        offered, rest = frames_of(stream.went + data)
        check(not rest and offered[0] == PROBE, "torn bytes, or the first isn't the probe")
        check(all(frame in self.by_frame for frame in offered[1:]), "torn bytes")
        stream.went, stream.last_use = stream.went + data[:count], now
        stream.frames, part = frames_of(stream.went)
        stream.begun = offered[:len(stream.frames) + bool(part)]
        numbers = [self.by_frame[frame].number for frame in stream.begun[1:]]
        check(all(one < next for one, next in itertools.pairwise(numbers)), f"not in the order of the calls: {numbers}")
        is_served = stream.answered() and stream.replies[0] == READY
        check(not numbers or is_served, "a request goes before the connection is served")
        check(stream.under_way() <= max(1, self.in_flight), f"{stream.under_way()} are under way, {self.in_flight} may be")
        for frame in stream.frames[1:]:
            self.by_frame[frame].went_to.add(stream.epoch)

    def serve(self, stream, most, is_well=False):
        """The server of a connection reads so many requests more, and replies."""
        for frame in stream.frames[stream.read:stream.read + most]:
            stream.read += 1
            if frame == PROBE:
                stream.replies.append(READY if is_well or self.chance.random() < 0.9 else NOT_READY)
            else:
                stream.replies.append(self.reply_to(stream, self.by_frame[frame]))

    def reply_to(self, stream, asked):
        asked.read_by.append(stream.epoch)
        if self.chance.random() < 0.05:
            asked.replied.append(NoMemory)
            return NO_MEMORY
        number = self.chance.randrange(1 << 32)
        asked.replied.append(number)
        return b"\0\x0a" + (b"\0" if asked.is_change else b"\1") + wire.number_bytes(number)

    def has_ended(self, call):
        """The core told of a call."""
        asked = self.by_call.get(id(call))
        check(asked is not None, "a call ends that nobody made")
        asked.ends += 1
        check(asked.ends == 1, f"a call ends {asked.ends} times: {call.outcome!r}")

    def answers(self, stream, first):
        """The replies from this one on came whole: each call of them has ended with its reply."""
        for frame in stream.frames[first:stream.answered()]:
            asked = self.by_frame.get(frame)
            if asked and not asked.is_cancelled:
                check(asked.call.is_done, "a call goes on after its reply")
                is_told = not isinstance(asked.call.outcome, (NotMade, OutcomeOpen))
                check(asked.ends or is_told, "its reply came, and isn't told")

    def judge(self):
        """All is over: each server reads what it got, and what each call told is true."""
        for stream in self.streams:
            self.serve(stream, len(stream.frames))
        for asked in self.asked:
            check(asked.ends == 1, f"a call ended {asked.ends} times")
            check(len(asked.went_to) <= (1 if asked.is_change else 1 + self.resends), "a request went too often")
            self.judge_outcome(asked, asked.call.outcome)

    def judge_outcome(self, asked, outcome):
        if isinstance(outcome, NotMade):
            check(not asked.is_change or not asked.read_by, f"NotMade, and a server made it: {outcome}")
        elif isinstance(outcome, OutcomeOpen):
            check(asked.is_change and (asked.went_to or asked.is_cancelled), f"open, and it can't be made: {outcome}")
        else:
            check(outcome in asked.replied or type(outcome) in asked.replied, f"no server replied {outcome!r}")
        if isinstance(outcome, DchmError):
            check((outcome.key, f"k{asked.number}" in str(outcome)) == (f"k{asked.number}", True), "an error without its key")


def has_connection(core, stream):
    return stream is not None and core.epoch == stream.epoch and core.link in (Link.TRIED, Link.UP)
