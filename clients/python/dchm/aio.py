"""The same methods for asyncio. Tasks share one connection, and their calls are sent ahead of each other's replies.

    import asyncio, dchm, dchm.aio
    async def main():
        async with await dchm.aio.connect(7411) as server:
            await asyncio.gather(*(server.merge("hits", dchm.SUM, 1) for _ in range(64)))
    asyncio.run(main())
"""
from __future__ import annotations

import asyncio
import math
import socket
from typing import Any

from dchm import sockets, wire
from dchm.async_calls import AsyncLongs, AsyncMap, AsyncTexts
from dchm.core import Call, Core, Link
from dchm.errors import Closed, DchmError, attach
from dchm.wire import Address, Value

__all__ = ["AsyncClient", "AsyncLongs", "AsyncMap", "AsyncTexts", "connect"]

_BUFFER_BYTES = 65_536
_BUSY_SECONDS = 0.01


class AsyncClient(AsyncMap[Value]):
    """A client for the tasks of one event loop: a shell of sockets around a core.

    At most `in_flight` requests are under way, the others wait. `timeout` seconds after its begin a call has ended, whatever
    it waited for. A connection that wasn't used for `idle` seconds is ended; 0 ends none. A read isn't sent again, and a
    change never is. A call whose task is cancelled keeps its place until its reply; dchm.outcome(error) says of the
    CancelledError what is true of it.
    """

    def __init__(self, address: Address, timeout: float = 30, connect_timeout: float = 5, idle: float = 30,
                 in_flight: int = 256) -> None:
        self.address = sockets.checked_address(address)
        self.timeout = sockets.checked_seconds("timeout", timeout)
        self._core = Core(str(address), sockets.checked_seconds("connect_timeout", connect_timeout),
                          idle and sockets.checked_seconds("idle", idle), sockets.checked_count("in_flight", in_flight), 0)
        self._loop = asyncio.get_running_loop()
        self._socket: socket.socket | None = None
        self._epoch = 0
        self._timer: asyncio.TimerHandle | None = None
        self._is_flush_due = self._waits_to_write = False
        self._turn: asyncio.Future[None] | None = None

    # -- calls

    def _bytes(self, value: Value) -> bytes:
        return wire.value_bytes(value)

    async def _call(self, frame: bytes) -> Any:
        self._check_loop()
        now = self._loop.time()
        call = self._core.begin(frame, now, now + self.timeout)
        if not call.is_done:
            await self._ended(call)
        if isinstance(call.outcome, DchmError):
            raise call.outcome
        return call.outcome

    async def _connected(self) -> None:
        self._core.open(self._loop.time())
        self._work()
        while self._core.link in (Link.OPENING, Link.TRIED):
            self._turn = self._loop.create_future()
            await self._turn
        if self._core.link is not Link.UP:
            raise self._core.failure or Closed("the client was closed")

    async def _ended(self, call: Call) -> None:
        call.waiter = self._loop.create_future()
        if not self._is_flush_due:
            # What other tasks begin in this turn of the loop is sent with it.
            self._is_flush_due = True
            self._loop.call_soon(self._flush)
        try:
            await call.waiter
        except asyncio.CancelledError as cancelled:
            self._core.cancel(call)
            attach(cancelled, wire.ended(call.frame, call.outcome))
            self._set_timer()
            raise

    def _check_loop(self) -> None:
        if asyncio.get_running_loop() is not self._loop:
            raise RuntimeError("this client serves the tasks of another event loop")

    def longs(self) -> AsyncLongs:
        """A view of the map whose values are numbers."""
        return AsyncLongs(self)

    def texts(self) -> AsyncTexts:
        """A view of the map whose values are texts."""
        return AsyncTexts(self)

    async def close(self) -> None:
        """Ends the connection, for good; what is under way is told."""
        self._check_loop()
        self._core.close()
        self._work()
        if self._timer:
            self._timer.cancel()

    async def __aenter__(self) -> AsyncClient:
        return self

    async def __aexit__(self, *_: object) -> None:
        await self.close()

    # -- what the core says

    def _flush(self) -> None:
        self._is_flush_due = False
        self._work()

    def _work(self) -> None:
        """Does what is to be done after an event."""
        self._follow()
        self._send()
        self._follow()
        self._tell()
        self._set_timer()
        if self._turn and not self._turn.done():
            self._turn.set_result(None)

    def _follow(self) -> None:
        """Has the connection that the core says."""
        core = self._core
        if self._socket and (self._epoch != core.epoch or core.link in (Link.NONE, Link.CLOSED)):
            self._drop()
        if core.link is Link.OPENING and not self._socket:
            self._epoch, self._socket = core.epoch, sockets.new_socket(self.address)
            self._loop.call_soon(self._connect, self._epoch)

    def _tell(self) -> None:
        finished = self._core.finished
        for call in finished:
            if call.waiter and not call.waiter.done():
                call.waiter.set_result(None)
        finished.clear()

    def _set_timer(self) -> None:
        due = self._core.due
        if self._timer and self._timer.when() <= due:
            return  # it looks then, and sets the next one
        if self._timer:
            self._timer.cancel()
        self._timer = None if due == math.inf else self._loop.call_at(due, self._tick)

    def _tick(self) -> None:
        self._timer = None
        self._core.tick(self._loop.time())
        self._work()

    # -- the connection

    def _connect(self, epoch: int) -> None:
        """Goes on connecting, for all calls that wait."""
        made = self._socket
        if not made or epoch != self._epoch:
            return
        self._loop.remove_writer(made)
        try:
            if sockets.is_connected(made, self.address):
                self._core.connected(self._loop.time())
                self._loop.add_reader(made, self._read)
            else:
                self._loop.add_writer(made, self._connect, epoch)
        except sockets.Busy:
            self._loop.call_later(_BUSY_SECONDS, self._connect, epoch)
        except OSError as error:
            self._core.lost(error, self._loop.time())
        self._work()

    def _drop(self) -> None:
        dropped, self._socket, self._waits_to_write = self._socket, None, False
        if dropped:
            self._loop.remove_reader(dropped)
            self._loop.remove_writer(dropped)
            dropped.close()

    def _send(self) -> None:
        """Sends what can be sent now, and the rest once more can be."""
        while self._socket and not self._waits_to_write and (unsent := self._core.unsent()):
            count = self._sent(self._socket, unsent)
            if count < len(unsent) and self._socket and self._epoch == self._core.epoch:
                self._waits_to_write = True
                self._loop.add_writer(self._socket, self._write)

    def _sent(self, to: socket.socket, data: bytes) -> int:
        try:
            count = to.send(data)
        except BlockingIOError:
            count = 0
        except OSError as error:
            self._core.lost(error, self._loop.time())
            return len(data)
        self._core.sent(count, self._loop.time())
        return count

    def _write(self) -> None:
        if self._socket:
            self._loop.remove_writer(self._socket)
        self._waits_to_write = False
        self._work()

    def _read(self) -> None:
        if self._socket:
            try:
                self._core.received(self._socket.recv(_BUFFER_BYTES), self._loop.time())
            except BlockingIOError:
                return
            except OSError as error:
                self._core.lost(error, self._loop.time())
            self._work()


async def connect(address: Address, timeout: float = 30, connect_timeout: float = 5, idle: float = 30,
                  in_flight: int = 256) -> AsyncClient:
    """A client of the server at a port of this machine, or at the path of a Unix socket.

    dchm.NotMade is raised if there is no server, its store has failed, or it has no place for the client
    within connect_timeout seconds.
    """
    client = AsyncClient(address, timeout, connect_timeout, idle, in_flight)
    try:
        await client._connected()
    except BaseException:
        await client.close()
        raise
    return client
