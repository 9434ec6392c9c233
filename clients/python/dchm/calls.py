"""The methods of the map, for the clients, the pipeline and the views."""
from __future__ import annotations

from collections.abc import Callable
from typing import Any, Generic, TypeVar

from dchm import wire
from dchm.errors import WrongValue
from dchm.wire import Function

V = TypeVar("V")
_RESULT_IS_A_VALUE = (wire.GET, wire.GET_OR_DEFAULT, wire.PUT, wire.PUT_IF_ABSENT, wire.REMOVE, wire.REPLACE, wire.COMPUTE,
                      wire.COMPUTE_IF_ABSENT, wire.COMPUTE_IF_PRESENT, wire.MERGE)


def of_kind(frame: bytes, found: Any, kind: type) -> Any:
    """The result of a call in a view of this kind of values."""
    if found is not None and frame[2] in _RESULT_IS_A_VALUE and not isinstance(found, kind):
        raise wire.about(frame, WrongValue, f"the call was made, and the value is of type {type(found).__name__}")
    return found


class Calls(Generic[V]):
    """The methods of the map with values of one type. A change returns once it is durable."""

    def _call(self, frame: bytes) -> Any:
        raise NotImplementedError

    def _bytes(self, value: V) -> bytes:
        raise NotImplementedError

    def _argument(self, value: V | None) -> bytes:
        return wire.ABSENT if value is None else self._bytes(value)

    def get(self, key: str) -> V | None:
        """The value of a key, or None."""
        found: V | None = self._call(wire.request(wire.GET, key))
        return found

    def get_or_default(self, key: str, value: V) -> V:
        """The value of a key, or this one."""
        found: V = self._call(wire.request(wire.GET_OR_DEFAULT, key, self._bytes(value)))
        return found

    def contains(self, key: str) -> bool:
        """Whether a key has a value."""
        found: bool = self._call(wire.request(wire.CONTAINS_KEY, key))
        return found

    def put(self, key: str, value: V) -> V | None:
        """Maps a key to a value; returns the value before."""
        found: V | None = self._call(wire.request(wire.PUT, key, self._bytes(value)))
        return found

    def put_if_absent(self, key: str, value: V) -> V | None:
        """Maps a key to a value if it has none; returns the value before, so None if it was done.

        If nobody else uses the value, it may be repeated after an open outcome.
        """
        found: V | None = self._call(wire.request(wire.PUT_IF_ABSENT, key, self._bytes(value)))
        return found

    def remove(self, key: str) -> V | None:
        """Unmaps a key; returns the value before."""
        found: V | None = self._call(wire.request(wire.REMOVE, key))
        return found

    def remove_if(self, key: str, value: V) -> bool:
        """Unmaps a key if it has this value; returns whether it was done."""
        found: bool = self._call(wire.request(wire.REMOVE_IF, key, self._bytes(value)))
        return found

    def replace(self, key: str, value: V) -> V | None:
        """Maps a key to another value if it has one; returns the value before."""
        found: V | None = self._call(wire.request(wire.REPLACE, key, self._bytes(value)))
        return found

    def replace_if(self, key: str, old: V, new: V) -> bool:
        """Maps a key to another value if it has the old one; returns whether it was done.

        If the old value never comes back, it may be repeated after an open outcome.
        """
        found: bool = self._call(wire.request(wire.REPLACE_IF, key, self._bytes(old) + self._bytes(new)))
        return found

    def compute(self, key: str, function: Function, argument: V | None = None) -> V | None:
        """Maps a key to what the function gives of the old value and the argument; returns the new value."""
        found: V | None = self._call(wire.function_request(wire.COMPUTE, key, function, self._argument(argument)))
        return found

    def compute_if_absent(self, key: str, function: Function, argument: V | None = None) -> V | None:
        """As compute, if the key has no value; returns the value that it has now."""
        found: V | None = self._call(
            wire.function_request(wire.COMPUTE_IF_ABSENT, key, function, self._argument(argument)))
        return found

    def compute_if_present(self, key: str, function: Function, argument: V | None = None) -> V | None:
        """As compute, if the key has a value; returns the value that it has now."""
        found: V | None = self._call(
            wire.function_request(wire.COMPUTE_IF_PRESENT, key, function, self._argument(argument)))
        return found

    def merge(self, key: str, function: Function, value: V) -> V | None:
        """Maps a key to the function of the old value and this one, or to this one; returns the new value."""
        found: V | None = self._call(wire.function_request(wire.MERGE, key, function, self._bytes(value)))
        return found

    def count(self) -> int:
        """How many keys have a value. The server asks each stripe of its map."""
        found: int = self._call(wire.count_request())
        return found

    def reduce(self, function: Function, threshold: int = 0) -> int | None:
        """All values folded by SUM, MAX or MIN, or None of an empty map. The server goes over its whole map."""
        found: int | None = self._call(wire.reduce_request(function, threshold))
        return found

    def search(self, value: V, threshold: int = 0) -> str | None:
        """The least key, by its bytes, with this value, or None. The server goes over its whole map."""
        found: str | None = self._call(wire.search_request(self._bytes(value), threshold))
        return found


class Map(Calls[V]):
    """The methods of the map, and the changes by any function."""

    def update(self, key: str, function: Callable[[V | None], V | None]) -> V | None:
        """Maps a key to function(value or None); None unmaps it. Returns the new value.

        A Get and a conditional change, again and again until no other change comes between: the function may be called
        more than once. It ends with OutcomeOpen if one of its changes does.
        """
        while True:
            old = self.get(key)
            new = function(old)
            if old is None:
                is_done = new is None or self.put_if_absent(key, new) is None
            else:
                is_done = self.remove_if(key, old) if new is None else self.replace_if(key, old, new)
            if is_done:
                return new


class Longs(Map[int]):
    """A view of a client whose values are numbers. A text in a reply is a WrongValue."""

    def __init__(self, client: Calls[Any]) -> None:
        self._client = client

    def _call(self, frame: bytes) -> Any:
        return of_kind(frame, self._client._call(frame), int)

    def _bytes(self, value: int) -> bytes:
        return wire.number_bytes(value)


class Texts(Map[str]):
    """A view of a client whose values are texts. A number in a reply is a WrongValue."""

    def __init__(self, client: Calls[Any]) -> None:
        self._client = client

    def _call(self, frame: bytes) -> Any:
        return of_kind(frame, self._client._call(frame), str)

    def _bytes(self, value: str) -> bytes:
        return wire.text_bytes(value)
