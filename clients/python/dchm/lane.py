"""One connection of a client that blocks: a shell of sockets around a core. One thread uses it at a time."""
from __future__ import annotations

import contextlib
import select
import socket
import time
from collections.abc import Callable, Sequence
from typing import Any, Protocol

from dchm import sockets, wire
from dchm.core import Call, Core, Link
from dchm.errors import NotMade, OutcomeOpen, PipelineFailed, attach
from dchm.wire import Address

# A thread that waits looks so often whether the client was closed meanwhile, also by a signal handler in this thread.
_TURN_SECONDS = 0.1
_BUSY_SECONDS = 0.01
_BUFFER_BYTES = 65_536
# How many calls of a pipeline are sent at a time, as the server makes them together, and how many are under way.
_ROW, _AHEAD = 64, 128
_NOT_SENT = "a call before it got no reply, and it isn't sent"
_INTERRUPTED = "interrupted before it was sent"
_WITHOUT_REPLY = (NotMade, OutcomeOpen)
_UP, _TRIED = Link.UP, Link.TRIED
_READABLE = select.POLLIN | select.POLLHUP | select.POLLERR


class Owner(Protocol):
    """The client of a connection, as far as that needs it."""
    is_closed: bool


class Lane:
    """A connection that is opened when a call needs it."""

    def __init__(self, address: Address, connect_timeout: float, idle: float, owner: Owner) -> None:
        self.core = Core(str(address), connect_timeout, idle, in_flight=_AHEAD, resends=1)
        self._address, self._owner = address, owner
        self._socket: socket.socket | None = None
        self._poll = select.poll()
        self._epoch = 0

    # -- calls

    def connect(self) -> None:
        """Opens a connection, or raises NotMade."""
        self.core.open(time.monotonic())
        while self.core.link not in (Link.UP, Link.NONE, Link.CLOSED):
            self._step()
        if self.core.link is not Link.UP:
            raise self.core.failure or NotMade("the client was closed")

    def ask(self, frame: bytes, begin: float, deadline: float) -> Any:
        """The outcome of one call."""
        core = self.core
        call: Call | None = None
        try:
            if core.link is not _UP or begin >= core.due or self._poll.poll(0):
                self.look(begin)
            call = core.begin(frame, begin, deadline)
            while not call.is_done:
                self._step()
        except BaseException as error:
            # Such as KeyboardInterrupt: the next call must not take the reply of this one.
            self.end(error)
            attach(error, wire.ended(frame, call.outcome) if call else wire.about(frame, NotMade, _INTERRUPTED))
            raise
        core.finished.clear()
        return call.outcome

    def ask_all(self, frames: Sequence[bytes], timeout: float) -> list[Any]:
        """The outcomes of calls that are sent ahead of each other's replies. After one without a reply no more are sent."""
        calls: list[Call] = []
        try:
            self._send_all(frames, timeout, calls)
        except BaseException as error:
            self.end(error)
            attach(error, PipelineFailed(self._replies(frames, calls, wire.ended)))
            raise
        self.core.finished.clear()
        return self._replies(frames, calls, lambda _, outcome: outcome)

    @staticmethod
    def _replies(frames: Sequence[bytes], calls: Sequence[Call], told: Callable[[bytes, Any], Any]) -> list[Any]:
        return [told(call.frame, call.outcome) for call in calls] + [
            wire.about(frame, NotMade, _NOT_SENT) for frame in frames[len(calls):]]

    def _send_all(self, frames: Sequence[bytes], timeout: float, calls: list[Call]) -> None:
        now = time.monotonic()
        self.look(now)
        begin = self.core.begin
        for at, frame in enumerate(frames):
            if at % _ROW == 0:
                if at >= _AHEAD and not self._ends_well(calls[at - _ROW - 1]):
                    break
                now = time.monotonic()
            calls.append(begin(frame, now, now + timeout))
        if not all(call.is_done or self._ends_well(call) for call in calls) or len(calls) < len(frames):
            for call in calls:
                self.core.cancel(call, _NOT_SENT)

    def _ends_well(self, call: Call) -> bool:
        """Waits until the call has ended; returns whether each that ended meanwhile got its reply."""
        while not call.is_done:
            self._step()
            for each in self.core.finished:
                if isinstance(each.outcome, _WITHOUT_REPLY):
                    return False
            self.core.finished.clear()
        return True

    # -- the connection

    def look(self, now: float) -> None:
        """Takes note of what happened while nobody used the connection, and of the time."""
        core = self.core
        if self._socket and self._poll.poll(0):
            self._read(now)
        if now >= core.due:
            core.tick(now)
        if core.link is not _UP:
            self._follow()

    def end(self, why: BaseException) -> None:
        """Ends the connection, also in the midst of a call: the next one must not take its reply."""
        self.core.end(f"the call was ended by {why!r}")
        self.core.finished.clear()
        self._drop()

    def close(self) -> None:
        """Ends the connection, for good."""
        self.core.close()
        self._drop()

    def forget(self) -> None:
        """In the child of a fork: its descriptor is closed, and the connection stays that of the parent alone.

        Another thread may have been in the midst of a change of the core, which nobody uses any more.
        """
        self._drop()
        with contextlib.suppress(Exception):
            self.core.close()

    def _drop(self) -> None:
        dropped, self._socket = self._socket, None
        if dropped:
            with contextlib.suppress(KeyError, ValueError):
                self._poll.unregister(dropped)
            dropped.close()

    def _follow(self) -> None:
        """Has the connection that the core says."""
        if self._socket and (self._epoch != self.core.epoch or self.core.link in (Link.NONE, Link.CLOSED)):
            self._drop()
        if self.core.link is Link.OPENING and not self._socket:
            self._epoch, self._socket = self.core.epoch, sockets.new_socket(self._address)

    def _step(self) -> None:
        """Does what is to be done now, and waits for what comes next, but not for long."""
        core = self.core
        if core.link is _UP or core.link is _TRIED:
            self._exchange()
        else:
            self._follow()
            if core.link is Link.OPENING:
                self._open()
        now = time.monotonic()
        if now >= core.due:
            core.tick(now)
        if self._owner.is_closed:
            core.close()
        if core.link is not _UP:
            self._follow()

    def _milliseconds(self, now: float) -> float:
        seconds = self.core.due - now
        return 1000 * (_TURN_SECONDS if seconds > _TURN_SECONDS else seconds if seconds > 0 else 0.0)

    def _open(self) -> None:
        if not self._socket:
            return
        try:
            if not sockets.is_connected(self._socket, self._address):
                self._poll.register(self._socket, select.POLLOUT)
                self._poll.poll(self._milliseconds(time.monotonic()))
                return
            self._poll.register(self._socket, select.POLLIN)
            self.core.connected(time.monotonic())
        except sockets.Busy:
            time.sleep(min(self._milliseconds(time.monotonic()) / 1000, _BUSY_SECONDS))
        except OSError as error:
            self.core.lost(error, time.monotonic())

    def _exchange(self) -> None:
        """Sends what can be sent, and reads what comes."""
        core, to, is_stuck = self.core, self._socket, False
        if not to:
            return
        try:
            now = time.monotonic()
            while not is_stuck and (unsent := core.unsent()):
                count = _sent(to, unsent)
                core.sent(count, now)
                is_stuck = count < len(unsent)
            if is_stuck:
                self._poll.modify(to, select.POLLIN | select.POLLOUT)
            ready = self._poll.poll(self._milliseconds(now))
            if is_stuck:
                self._poll.modify(to, select.POLLIN)
            if ready and ready[0][1] & _READABLE:
                core.received(to.recv(_BUFFER_BYTES), time.monotonic())
        except BlockingIOError:
            pass
        except OSError as error:
            core.lost(error, time.monotonic())

    def _read(self, now: float) -> None:
        if not self._socket:
            return
        try:
            self.core.received(self._socket.recv(_BUFFER_BYTES), now)
        except BlockingIOError:
            pass
        except OSError as error:
            self.core.lost(error, now)


def _sent(to: socket.socket, data: bytes) -> int:
    """How many of these bytes went."""
    try:
        return to.send(data)
    except BlockingIOError:
        return 0
