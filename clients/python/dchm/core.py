"""What a connection of a client does, without sockets, threads and time: a class of plain state.

A shell tells it what happens: a call, a cancel, connected, so many bytes went, bytes came, it is later, lost, closed. Each
event has the time, in seconds of a clock that only rises. After each event the shell does what the state says:

    link, epoch   the connection that there is to be. A number other than the shell's own: the one before is ended
    unsent()      the bytes that are to be sent
    finished      the calls that have ended, whose callers are told; the shell empties it
    due           when it is to be told the time, at the latest

Within an epoch the bytes are those of whole requests, one after the other, and the first is a Get of the empty key: only
its reply shows that the server serves the connection. A change is sent once. A read whose connection breaks is sent
again, `resends` times at most. A connection ends with what was sent over it once a reply is overdue.
"""
from __future__ import annotations

import collections
import enum
import math
from collections.abc import Iterable
from itertools import islice
from typing import Any

from dchm import wire
from dchm.errors import Closed, DchmError, NotMade

PROBE = wire.request(wire.GET, "")


class Link(enum.Enum):
    """How far a connection is."""
    NONE = "there is none, and none is needed"
    OPENING = "the shell is to connect, and tells `connected` or `lost`"
    TRIED = "it is connected, and the first reply has to come"
    UP = "the server serves it"
    CLOSED = "there will be none any more"


# Names that are looked up faster than those of an enum.
_NONE, _TRIED, _UP, _CLOSED = Link.NONE, Link.TRIED, Link.UP, Link.CLOSED


class Call:
    """A request, and what came of it: a value, a bool, or an exception that isn't raised."""
    __slots__ = ("deadline", "frame", "has_begun", "is_done", "outcome", "resends", "waiter")

    def __init__(self, frame: bytes, deadline: float, resends: int) -> None:
        self.frame, self.deadline, self.resends = frame, deadline, resends
        self.has_begun = False  # a byte of it went
        self.is_done = False    # it ended, or its caller waits no longer
        self.outcome: Any = None
        self.waiter: Any = None  # for the shell


class Core:
    """One connection at a time, and the calls that are to go over it."""

    def __init__(self, server: str, connect_timeout: float, idle: float, in_flight: int, resends: int) -> None:
        self.server, self.connect_timeout, self.idle = server, connect_timeout, idle
        self.in_flight, self.resends = in_flight, resends
        self.link, self.epoch = Link.NONE, 0
        self.finished: list[Call] = []
        self.failure: DchmError | None = None  # why the last attempt to connect failed
        self._queue: collections.deque[Call] = collections.deque()  # no byte of these went in this epoch
        self._row: collections.deque[Call] = collections.deque()    # these were begun and have no reply
        self._rest = b""    # what hasn't gone of the last of the row
        self._unread = b""  # what came and is no whole reply
        self.due = self._connect_due = math.inf  # when `tick` has to be called, at the latest
        self._last_use = 0.0

    # -- what the shell looks at

    def is_quiet(self) -> bool:
        """Whether no call is under way or waits."""
        return not self._row and all(call.is_done for call in self._queue)

    def unsent(self) -> bytes:
        """What is to be sent now; there may be more behind it. `sent` says how much of it went before any other event."""
        queue = self._queue
        if self.link is not _UP:
            return self._rest if self.link is Link.TRIED else b""
        places = self.in_flight - len(self._row)
        if not queue or places <= 0:
            return self._rest
        while queue and queue[0].is_done:
            queue.popleft()
        return self._rest + b"".join([call.frame for call in islice(queue, places) if not call.is_done])

    # -- events of the callers

    def begin(self, frame: bytes, now: float, deadline: float) -> Call:
        """A call, which ends by its deadline."""
        call = Call(frame, deadline, 0 if wire.may_change(frame) else self.resends)
        if deadline <= now or self.link is _CLOSED:
            self._refuse(call)
            return call
        self._queue.append(call)
        if deadline < self.due:
            self.due = deadline
        if self.link is _NONE:
            self.open(now)
        return call

    def _refuse(self, call: Call) -> None:
        if self.link is Link.CLOSED:
            self._finish(call, wire.about(call.frame, Closed, "the client was closed"))
        else:
            self._finish(call, wire.about(call.frame, NotMade, "its time is over before it begins"))

    def cancel(self, call: Call, why: str = "it was cancelled") -> None:
        """Its caller waits no longer. If it was begun, it keeps its place until its reply; else it is never sent."""
        if not call.is_done:
            call.is_done = True
            call.outcome = wire.lost(call.frame, why) if call.has_begun else wire.about(call.frame, NotMade, why)
            if self.idle and self.link is Link.UP:
                self.due = min(self.due, self._last_use + self.idle)  # it may have been all that kept it

    def open(self, now: float) -> None:
        """A connection is wanted."""
        if self.link is Link.NONE:
            self.link, self.epoch, self._last_use = Link.OPENING, self.epoch + 1, now
            self._connect_due = now + self.connect_timeout
            self.due = min(self.due, self._connect_due)

    def end(self, why: str, kind: type[NotMade] = NotMade) -> None:
        """Ends the connection and all calls, such as after an interrupt. What wasn't sent is of this kind."""
        if self.link is not Link.CLOSED:
            self._end_row(why, math.inf)
            self._end_queue(kind, why)
            self.link, self._connect_due = Link.NONE, math.inf

    def close(self) -> None:
        """The client is closed, for good."""
        self.end("the client was closed", Closed)
        self.link = Link.CLOSED

    # -- events of the connection

    def connected(self, now: float) -> None:
        """The shell has connected."""
        if self.link is Link.OPENING:
            self.link, self._rest = Link.TRIED, PROBE
            probe = Call(PROBE, self._connect_due, 0)
            probe.is_done = True  # nobody is told of it
            self._row.append(probe)

    def sent(self, count: int, now: float) -> None:
        """So many bytes went of what `unsent` had."""
        self._last_use = now
        if self._rest:
            self._rest, count = self._rest[count:], count - len(self._rest)
        while count > 0:
            call = self._queue.popleft()
            if not call.is_done:
                call.has_begun = True
                self._row.append(call)
                count -= len(call.frame)
                if count < 0:
                    self._rest = call.frame[count:]

    def received(self, data: bytes, now: float) -> None:
        """These bytes came; none if the server has ended the connection."""
        if self.link is not _UP and self.link is not _TRIED:
            return
        if not data:
            self.lost(EOFError("the server ended the connection"), now)
            return
        self._last_use = now
        try:
            self._read(self._unread + data if self._unread else data, now)
        except (wire.BadReply, DchmError) as error:
            self.lost(error, now)

    def lost(self, why: BaseException, now: float) -> None:
        """The connection broke, or couldn't be had."""
        if self.link in (Link.NONE, Link.CLOSED):
            return
        was, self.link = self.link, Link.NONE
        self._connect_due = math.inf
        if was is Link.UP:
            self._end_row(f"no reply came: {why}", now)
            if not self.is_quiet():
                self.open(now)
        else:
            self.failure = self._not_served(why)
            self._forget_stream()
            self._end_queue(NotMade, str(self.failure))

    def tick(self, now: float) -> None:
        """It is later: ends what is overdue, and a connection that is idle."""
        if now < self.due:
            return
        if now >= self._connect_due:
            self.lost(TimeoutError(f"within {self.connect_timeout} s"), now)
        if any(call.deadline <= now for call in self._row):
            self.lost(TimeoutError("it is overdue"), now)
        for call in self._queue:
            if call.deadline <= now:
                self._finish(call, wire.about(call.frame, NotMade, self._why_it_waited()))
        if self.idle and self.link is Link.UP and now >= self._last_use + self.idle and self.is_quiet():
            self.lost(ConnectionError("it was idle"), now)
        self._set_due(now)

    # -- how these are done

    def _finish(self, call: Call, outcome: Any) -> None:
        if not call.is_done:
            call.outcome, call.is_done = outcome, True
            self.finished.append(call)

    def _read(self, unread: bytes, now: float) -> None:
        """Takes the whole replies."""
        row, rest, at, size = self._row, self._rest, 0, len(unread)
        is_first = self.link is _TRIED
        while size >= at + 2:
            length = unread[at] << 8 | unread[at + 1]
            if not 2 <= length <= wire.REPLY_LIMIT:
                raise wire.BadReply(f"bytes that are no reply: {unread[at:at + 16]!r}")
            if size < at + 2 + length:
                break
            if not row or rest and len(row) == 1:
                raise wire.BadReply("a reply to no request")
            outcome = wire.result(row[0].frame, unread[at + 2:at + 2 + length])
            if is_first:
                self._tried(outcome, now)
                is_first = False
            call, at = row.popleft(), at + 2 + length
            if not call.is_done:
                call.outcome, call.is_done = outcome, True
                self.finished.append(call)
        self._unread = unread[at:]

    def _tried(self, outcome: Any, now: float) -> None:
        """The first reply came."""
        if isinstance(outcome, DchmError):
            raise outcome
        self.link, self._connect_due, self.failure = Link.UP, math.inf, None
        if self.idle:
            self.due = min(self.due, now + self.idle)

    def _end_row(self, why: str, now: float) -> None:
        """Ends what was begun, but for reads that are sent again if they aren't overdue."""
        again = []
        partly = self._row[-1] if self._rest else None
        for call in self._row:
            if not call.is_done and call.resends and now < call.deadline:
                call.resends -= 1
                again.append(call)
            elif call is partly:
                self._finish(call, wire.about(call.frame, NotMade, f"a part of it was sent: {why}"))
            else:
                self._finish(call, wire.lost(call.frame, f"it was sent, and {why}"))
        self._forget_stream()
        self._queue.extendleft(reversed(again))

    def _end_queue(self, kind: type[NotMade], why: str) -> None:
        for call in self._queue:
            self._finish(call, wire.about(call.frame, kind, why))
        self._queue.clear()

    def _forget_stream(self) -> None:
        self._row.clear()
        self._rest = self._unread = b""

    def _not_served(self, why: BaseException) -> NotMade:
        if isinstance(why, TimeoutError):
            return NotMade(f"the server at {self.server} didn't serve the connection {why}")
        if isinstance(why, wire.BadReply):
            return NotMade(f"what listens at {self.server} doesn't speak as dchm serve: {why}")
        if isinstance(why, DchmError):
            return NotMade(f"the server at {self.server} isn't ready: {why}")
        if isinstance(why, (EOFError, ConnectionResetError, BrokenPipeError)):
            return NotMade(f"the server at {self.server} ended the connection before its first reply;"
                           f" it may serve no more of them (--connections)")
        return NotMade(f"no server at {self.server}: {why}")

    def _why_it_waited(self) -> str:
        if self.link is Link.UP:
            return f"in its time {self.in_flight} others were under way, or the server took no bytes"
        return f"in its time the server at {self.server} served no connection"

    def _set_due(self, now: float) -> None:
        """The next time at which `tick` may find anything."""
        while self._queue and self._queue[0].is_done:
            self._queue.popleft()
        calls: Iterable[Call] = (*self._row, *(call for call in self._queue if not call.is_done))
        self.due = min((call.deadline for call in calls), default=math.inf)
        self.due = min(self.due, self._connect_due)
        if self.idle and self.link is Link.UP:
            quiet_since = self._last_use if self.is_quiet() else now
            self.due = min(self.due, quiet_since + self.idle)
