"""The connections of a client for threads, each of which one thread uses at a time."""
from __future__ import annotations

import collections
import contextlib
import math
import os
import threading
import time
import weakref

from dchm.core import Link
from dchm.lane import Lane
from dchm.wire import Address

# How long a thread waits for a connection of another before it looks whether the client was closed.
_TURN_SECONDS = 0.1
_CLOSED = Link.CLOSED
# After the server had no place for a connection beside others, it isn't asked for one more for so long.
_PAUSE_SECONDS = 1


class Pool:
    """The connections of a client. They are opened as threads need them, and `most` of them are there at most."""

    def __init__(self, address: Address, connect_timeout: float, idle: float, most: int) -> None:
        self._address, self._connect_timeout, self._idle, self._most = address, connect_timeout, idle, most
        self.is_closed = False
        self._begin()
        _POOLS.add(self)

    def _begin(self) -> None:
        # What pops, appends and copies is whole also where a signal handler or a thread comes between; no lock is held.
        self._free: collections.deque[Lane] = collections.deque()
        self._lanes: list[Lane] = []
        self._places = collections.deque([-math.inf] * self._most)  # from when on each place may be used
        self._waiting = 0
        self._freed = threading.Condition()
        self._closing = threading.Event()
        self._sweeper: threading.Thread | None = None

    def taken(self, deadline: float) -> Lane | None:
        """A connection that no other thread uses; None if all are used until the deadline."""
        while not self.is_closed:
            try:
                return self._free.pop()
            except IndexError:
                pass
            if self._has_place():
                return self._added()
            if time.monotonic() >= deadline:
                return None
            self._wait(deadline)
        return None

    def _has_place(self) -> bool:
        """Takes a place for one more connection, if there is one."""
        try:
            begin = self._places.pop()
        except IndexError:
            return False
        if begin > time.monotonic():
            self._places.appendleft(begin)
            return False
        return True

    def withholds(self, lane: Lane) -> bool:
        """Whether the server serves others of these, though not this one: then the call waits for one of them."""
        if not any(other.core.link is Link.UP for other in list(self._lanes) if other is not lane):
            return False
        lane.close()
        self._lanes.remove(lane)
        self._places.append(time.monotonic() + _PAUSE_SECONDS)
        return True

    def _added(self) -> Lane:
        lane = Lane(self._address, self._connect_timeout, self._idle, self)
        self._lanes.append(lane)
        if self._idle and not self._sweeper:
            self._sweeper = threading.Thread(target=_sweep, args=(weakref.ref(self), self._closing, self._idle), daemon=True)
            self._sweeper.start()
        return lane

    def _wait(self, deadline: float) -> None:
        with self._freed:
            self._waiting += 1
            try:
                if not self._free:
                    self._freed.wait(max(0.0, min(deadline - time.monotonic(), _TURN_SECONDS)))
            finally:
                self._waiting -= 1

    def put_back(self, lane: Lane) -> None:
        """The thread uses the connection no more."""
        if lane.core.link is not _CLOSED:
            self._free.append(lane)
        if self.is_closed:
            self._close_free()
        elif self._waiting:
            with self._freed:
                self._freed.notify()

    def sweep(self) -> float:
        """Ends the connections that are idle; returns how soon the next one may be."""
        now, soonest = time.monotonic(), time.monotonic() + self._idle
        for _ in range(len(self._free)):
            try:
                lane = self._free.popleft()
            except IndexError:
                break
            lane.look(now)
            soonest = min(soonest, lane.core.due)
            self.put_back(lane)
        return max(0.0, soonest - time.monotonic())

    def close(self) -> None:
        """Ends the free connections; a thread that uses one ends it. It takes no lock that a call may hold."""
        if not self.is_closed:
            self.is_closed = True
            self._closing.set()
        self._close_free()

    def _close_free(self) -> None:
        with contextlib.suppress(IndexError):
            while True:
                self._free.pop().close()

    def after_fork(self) -> None:
        """In the child: the connections stay those of the parent, and no thread of the parent holds a lock."""
        lanes = self._lanes
        self._begin()
        for lane in lanes:
            lane.forget()


_POOLS: weakref.WeakSet[Pool] = weakref.WeakSet()


def _after_fork() -> None:
    for pool in list(_POOLS):
        pool.after_fork()


os.register_at_fork(after_in_child=_after_fork)


def _sweep(reference: weakref.ref[Pool], closing: threading.Event, seconds: float) -> None:
    """The thread that ends idle connections, until the client is closed or forgotten."""
    while not closing.wait(seconds):
        pool = reference()
        if pool is None:
            return
        seconds = pool.sweep()
        del pool
