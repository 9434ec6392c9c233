"""The methods of the map for asyncio."""
from __future__ import annotations

from collections.abc import Callable
from typing import Any, Generic, TypeVar

from dchm import wire
from dchm.calls import of_kind
from dchm.wire import Function

V = TypeVar("V")


class AsyncMap(Generic[V]):
    """The methods of the map with values of one type. A change returns once it is durable."""

    async def _call(self, frame: bytes) -> Any:
        raise NotImplementedError

    def _bytes(self, value: V) -> bytes:
        raise NotImplementedError

    def _argument(self, value: V | None) -> bytes:
        return wire.ABSENT if value is None else self._bytes(value)

    async def get(self, key: str) -> V | None:
        """The value of a key, or None."""
        found: V | None = await self._call(wire.request(wire.GET, key))
        return found

    async def get_or_default(self, key: str, value: V) -> V:
        """The value of a key, or this one."""
        found: V = await self._call(wire.request(wire.GET_OR_DEFAULT, key, self._bytes(value)))
        return found

    async def contains(self, key: str) -> bool:
        """Whether a key has a value."""
        found: bool = await self._call(wire.request(wire.CONTAINS_KEY, key))
        return found

    async def put(self, key: str, value: V) -> V | None:
        """Maps a key to a value; returns the value before."""
        found: V | None = await self._call(wire.request(wire.PUT, key, self._bytes(value)))
        return found

    async def put_if_absent(self, key: str, value: V) -> V | None:
        """Maps a key to a value if it has none; returns the value before, so None if it was done.

        If nobody else uses the value, it may be repeated after an open outcome.
        """
        found: V | None = await self._call(wire.request(wire.PUT_IF_ABSENT, key, self._bytes(value)))
        return found

    async def remove(self, key: str) -> V | None:
        """Unmaps a key; returns the value before."""
        found: V | None = await self._call(wire.request(wire.REMOVE, key))
        return found

    async def remove_if(self, key: str, value: V) -> bool:
        """Unmaps a key if it has this value; returns whether it was done."""
        found: bool = await self._call(wire.request(wire.REMOVE_IF, key, self._bytes(value)))
        return found

    async def replace(self, key: str, value: V) -> V | None:
        """Maps a key to another value if it has one; returns the value before."""
        found: V | None = await self._call(wire.request(wire.REPLACE, key, self._bytes(value)))
        return found

    async def replace_if(self, key: str, old: V, new: V) -> bool:
        """Maps a key to another value if it has the old one; returns whether it was done.

        If the old value never comes back, it may be repeated after an open outcome.
        """
        found: bool = await self._call(wire.request(wire.REPLACE_IF, key, self._bytes(old) + self._bytes(new)))
        return found

    async def compute(self, key: str, function: Function, argument: V | None = None) -> V | None:
        """Maps a key to what the function gives of the old value and the argument; returns the new value."""
        found: V | None = await self._call(wire.function_request(wire.COMPUTE, key, function, self._argument(argument)))
        return found

    async def compute_if_absent(self, key: str, function: Function, argument: V | None = None) -> V | None:
        """As compute, if the key has no value; returns the value that it has now."""
        found: V | None = await self._call(
            wire.function_request(wire.COMPUTE_IF_ABSENT, key, function, self._argument(argument)))
        return found

    async def compute_if_present(self, key: str, function: Function, argument: V | None = None) -> V | None:
        """As compute, if the key has a value; returns the value that it has now."""
        found: V | None = await self._call(
            wire.function_request(wire.COMPUTE_IF_PRESENT, key, function, self._argument(argument)))
        return found

    async def merge(self, key: str, function: Function, value: V) -> V | None:
        """Maps a key to the function of the old value and this one, or to this one; returns the new value."""
        found: V | None = await self._call(wire.function_request(wire.MERGE, key, function, self._bytes(value)))
        return found

    async def count(self) -> int:
        """How many keys have a value. The server asks each stripe of its map, and what follows waits."""
        found: int = await self._call(wire.count_request())
        return found

    async def reduce(self, function: Function, threshold: int = 0) -> int | None:
        """All values folded by SUM, MAX or MIN, or None of an empty map.

        The server goes over its map, and what follows waits.
        """
        found: int | None = await self._call(wire.reduce_request(function, threshold))
        return found

    async def search(self, value: V, threshold: int = 0) -> str | None:
        """The least key, by its bytes, with this value, or None. The server goes over its map, and what follows waits."""
        found: str | None = await self._call(wire.search_request(self._bytes(value), threshold))
        return found


    async def update(self, key: str, function: Callable[[V | None], V | None]) -> V | None:
        """Maps a key to function(value or None); None unmaps it. Returns the new value.

        A Get and a conditional change, again and again until no other change comes between: the function may be called
        more than once. It ends with OutcomeOpen if one of its changes does.
        """
        while True:
            old = await self.get(key)
            new = function(old)
            if old is None:
                is_done = new is None or await self.put_if_absent(key, new) is None
            else:
                is_done = await (self.remove_if(key, old) if new is None else self.replace_if(key, old, new))
            if is_done:
                return new


class AsyncLongs(AsyncMap[int]):
    """A view of a client whose values are numbers. A text in a reply is a WrongValue."""

    def __init__(self, client: AsyncMap[Any]) -> None:
        self._client = client

    async def _call(self, frame: bytes) -> Any:
        return of_kind(frame, await self._client._call(frame), int)

    def _bytes(self, value: int) -> bytes:
        return wire.number_bytes(value)


class AsyncTexts(AsyncMap[str]):
    """A view of a client whose values are texts. A number in a reply is a WrongValue."""

    def __init__(self, client: AsyncMap[Any]) -> None:
        self._client = client

    async def _call(self, frame: bytes) -> Any:
        return of_kind(frame, await self._client._call(frame), str)

    def _bytes(self, value: str) -> bytes:
        return wire.text_bytes(value)
