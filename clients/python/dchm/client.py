"""The client for threads: each call under way has a connection of its own."""
from __future__ import annotations

import contextlib
import time
from collections.abc import Iterator
from typing import Any

from dchm import sockets, wire
from dchm.calls import Calls, Longs, Map, Texts
from dchm.errors import Closed, DchmError, NotMade, PipelineFailed, attach
from dchm.lane import Lane
from dchm.pool import Pool
from dchm.wire import Address, Value


class Pipeline(Calls[Value]):
    """Calls that are sent together. Each returns None; `replies` has their results once the block is left."""

    def __init__(self) -> None:
        self.frames: list[bytes] = []
        self.replies: list[Any] = []

    def _call(self, frame: bytes) -> None:
        self.frames.append(frame)

    def _bytes(self, value: Value) -> bytes:
        return wire.value_bytes(value)


class Client(Map[Value]):
    """A client for all threads of a process; the child of a fork has connections of its own.

    Each call under way has a connection, of which there are `connections` at most. One that wasn't used for `idle` seconds
    is ended; so it is less than --idle-seconds of the server, and 0 ends none. `timeout` seconds after its begin a call has
    ended, whatever it waited for. A read whose connection breaks is sent once more; a change never is.
    """

    def __init__(self, address: Address, timeout: float = 30, connect_timeout: float = 5, idle: float = 30,
                 connections: int = 16) -> None:
        self.address = sockets.checked_address(address)
        self.timeout = sockets.checked_seconds("timeout", timeout)
        self._pool = Pool(self.address, sockets.checked_seconds("connect_timeout", connect_timeout),
                          idle and sockets.checked_seconds("idle", idle), sockets.checked_count("connections", connections))
        lane = self._pool.taken(0)
        assert lane
        try:
            lane.connect()
        except BaseException:
            lane.close()
            self.close()
            raise
        self._pool.put_back(lane)

    def _bytes(self, value: Value) -> bytes:
        return wire.value_bytes(value)

    def _call(self, frame: bytes) -> Any:
        begin = time.monotonic()
        found = self._ask(frame, begin, begin + self.timeout)
        if isinstance(found, DchmError):
            raise found
        return found

    def _ask(self, frame: bytes, begin: float, deadline: float) -> Any:
        lane = self._lane(frame, deadline)
        try:
            found = lane.ask(frame, begin, deadline)
            if isinstance(found, NotMade) and lane.core.failure and self._pool.withholds(lane):
                return self._ask(frame, begin, deadline)
            return found
        finally:
            self._pool.put_back(lane)

    def _lane(self, frame: bytes, deadline: float) -> Lane:
        try:
            lane = self._pool.taken(deadline)
        except BaseException as error:
            attach(error, wire.about(frame, NotMade, "interrupted before it was sent"))
            raise
        if lane is None:
            if self._pool.is_closed:
                raise wire.about(frame, Closed, "the client was closed")
            raise wire.about(frame, NotMade, f"in its time no connection was free within {self.timeout} s")
        return lane

    @contextlib.contextmanager
    def pipeline(self) -> Iterator[Pipeline]:
        """Calls that are sent together when the block is left. They aren't one change.

        PipelineFailed is raised if one has no result, and has what was made. After a call without a reply no more are sent.
        """
        calls = Pipeline()
        yield calls
        if calls.frames:
            calls.replies = self._ask_all(calls.frames)
        if any(isinstance(reply, DchmError) for reply in calls.replies):
            raise PipelineFailed(calls.replies)

    def _ask_all(self, frames: list[bytes]) -> list[Any]:
        lane = self._lane(frames[0], time.monotonic() + self.timeout)
        try:
            return lane.ask_all(frames, self.timeout)
        finally:
            self._pool.put_back(lane)

    def longs(self) -> Longs:
        """A view of the map whose values are numbers."""
        return Longs(self)

    def texts(self) -> Texts:
        """A view of the map whose values are texts."""
        return Texts(self)

    def close(self) -> None:
        """Ends the connections, for good; a call under way ends too. A signal handler may close the client."""
        self._pool.close()

    def __enter__(self) -> Client:
        return self

    def __exit__(self, *_: object) -> None:
        self.close()


def connect(address: Address, timeout: float = 30, connect_timeout: float = 5, idle: float = 30,
            connections: int = 16) -> Client:
    """A client of the server at a port of this machine, or at the path of a Unix socket.

    NotMade is raised if there is no server, its store has failed, or it has no place for the client within
    connect_timeout seconds.
    """
    return Client(address, timeout, connect_timeout, idle, connections)
