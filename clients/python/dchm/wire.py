"""The requests and replies of `dchm serve` as bytes."""
from __future__ import annotations

import enum
import os
import struct
from typing import Any, Union

from dchm.errors import FAULTS, REFUSALS, DchmError, Made, NotMade, OutcomeOpen, Refused

Value = Union[int, str]
Address = Union[int, str, "os.PathLike[str]"]


class BadReply(ConnectionError):
    """Bytes that are no reply, or a reply that the method of its request doesn't have."""


class Function(enum.IntEnum):
    """The functions that the server has by name. Each stands in dchm too, such as dchm.SUM."""
    CONST = 1
    DROP = 2
    KEEP = 3
    SUM = 4
    MAX = 5
    MIN = 6
    CONCAT = 7
    SUM_NONZERO = 8
    SUM_EXACT = 9


CONST, DROP, KEEP, SUM, MAX, MIN, CONCAT, SUM_NONZERO, SUM_EXACT = tuple(Function)
GET, GET_OR_DEFAULT, CONTAINS_KEY = 1, 2, 3
PUT, PUT_IF_ABSENT, REMOVE, REMOVE_IF, REPLACE, REPLACE_IF = 16, 17, 18, 19, 20, 21
COMPUTE, COMPUTE_IF_ABSENT, COMPUTE_IF_PRESENT, MERGE = 22, 23, 24, 25
COUNT, REDUCE, SEARCH = 32, 33, 34

METHOD_NAMES = {
    GET: "get", GET_OR_DEFAULT: "get_or_default", CONTAINS_KEY: "contains",
    PUT: "put", PUT_IF_ABSENT: "put_if_absent", REMOVE: "remove", REMOVE_IF: "remove_if",
    REPLACE: "replace", REPLACE_IF: "replace_if", COMPUTE: "compute", COMPUTE_IF_ABSENT: "compute_if_absent",
    COMPUTE_IF_PRESENT: "compute_if_present", MERGE: "merge", COUNT: "count", REDUCE: "reduce", SEARCH: "search"}
KEY_LIMIT, TEXT_LIMIT = 4095, 4096
REPLY_LIMIT = 4 + TEXT_LIMIT
# The status of a reply that has a result: what the value was, what it is now, or whether it is so.
_WAS, _IS_NOW, _IS_SO, _FAULT, _REFUSED, _FAILED = 0, 1, 2, 3, 0x80, 0x89
_STATUSES = {
    **dict.fromkeys((PUT, PUT_IF_ABSENT, REMOVE, REPLACE), _WAS),
    **dict.fromkeys((GET, GET_OR_DEFAULT, COMPUTE, COMPUTE_IF_ABSENT, COMPUTE_IF_PRESENT, MERGE, COUNT, REDUCE, SEARCH),
                    _IS_NOW),
    **dict.fromkeys((CONTAINS_KEY, REMOVE_IF, REPLACE_IF), _IS_SO)}
_MAY_FAULT = (COMPUTE, COMPUTE_IF_ABSENT, COMPUTE_IF_PRESENT, MERGE, REDUCE)
# The types of what a reply has, of the methods of which it isn't any value or absent.
_KINDS: dict[int, tuple[type, ...]] = {
    GET_OR_DEFAULT: (int, str), COUNT: (int,), REDUCE: (int, type(None)), SEARCH: (str, type(None)),
    CONTAINS_KEY: (int,), REMOVE_IF: (int,), REPLACE_IF: (int,)}
# The status of each method whose reply has any value or absent; 255 for the other numbers.
_PLAIN = bytes(_STATUSES[method] if method in _STATUSES and method not in _KINDS else 255 for method in range(256))
_HEAD = struct.Struct(">HBH")  # of a request: how much follows, the method, and the length of the key
_NUMBER = struct.Struct(">Bq")  # a number: its kind, and 64 bits


# ---- requests


def _utf8(text: str, limit: int, what: str) -> bytes:
    if not isinstance(text, str):
        raise TypeError(f"a {what} is a str, not {type(text).__name__}")
    data = text.encode()  # a lone surrogate is a UnicodeEncodeError, which is a ValueError
    if len(data) > limit:
        raise ValueError(f"a {what} has {len(data)} bytes of UTF-8, and at most {limit} are allowed")
    return data


def number_bytes(value: int, what: str = "a number is an int") -> bytes:
    """A number as the protocol has it."""
    if type(value) is not int and (not isinstance(value, int) or isinstance(value, (bool, Function))):
        raise TypeError(f"{what}, not {'None' if value is None else type(value).__name__}")
    try:
        return _NUMBER.pack(1, value)
    except struct.error:
        raise OverflowError(f"a number has 64 bits, and {value.bit_length() + 1} are needed") from None


def text_bytes(value: str) -> bytes:
    """A text as the protocol has it."""
    data = _utf8(value, TEXT_LIMIT, "text")
    return b"\2" + len(data).to_bytes(2, "big") + data


def value_bytes(value: Value) -> bytes:
    """A value as the protocol has it."""
    return text_bytes(value) if isinstance(value, str) else number_bytes(value, "a value is an int or a str")


def _function_bytes(function: Function) -> bytes:
    if not isinstance(function, Function):
        raise TypeError(f"a function is one such as dchm.SUM, not {function!r}")
    return bytes([function])


def _threshold_bytes(threshold: int) -> bytes:
    if not isinstance(threshold, int) or not 0 <= threshold < 1 << 64:
        raise ValueError(f"a threshold is a count of entries, not {threshold!r}")
    return threshold.to_bytes(8, "big")


ABSENT = b"\0"


def request(method: int, key: str, values: bytes = b"") -> bytes:
    """The frame of a request of a key, with the bytes of what follows the key."""
    data = _utf8(key, KEY_LIMIT, "key")
    return _HEAD.pack(3 + len(data) + len(values), method, len(data)) + data + values


def function_request(method: int, key: str, function: Function, value: bytes) -> bytes:
    """The frame of a request of a key with a function, with the bytes of its argument."""
    return request(method, key, _function_bytes(function) + value)


def _whole_request(method: int, *parts: bytes) -> bytes:
    body = b"".join((bytes((method,)), *parts))
    return len(body).to_bytes(2, "big") + body


def count_request() -> bytes:
    """The frame of a request for the count of the whole map."""
    return _whole_request(COUNT)


def reduce_request(function: Function, threshold: int) -> bytes:
    """The frame of a request to fold the whole map."""
    return _whole_request(REDUCE, _function_bytes(function), _threshold_bytes(threshold))


def search_request(value: bytes, threshold: int) -> bytes:
    """The frame of a request for a key of the whole map, with the bytes of the value."""
    return _whole_request(SEARCH, _threshold_bytes(threshold), value)


def may_change(frame: bytes) -> bool:
    """Whether the request may change the map, so that its outcome can be open."""
    return PUT <= frame[2] <= MERGE


# ---- errors that name their call


def method_and_key(frame: bytes) -> tuple[str, str | None]:
    """The name of a request's method, and its key if it has one."""
    name = METHOD_NAMES.get(frame[2], f"method {frame[2]}")
    if frame[2] >= COUNT or len(frame) < 5:
        return name, None
    return name, frame[5:5 + int.from_bytes(frame[3:5], "big")].decode(errors="replace")


def about(frame: bytes, kind: type[DchmError], why: str) -> DchmError:
    """An exception that names the method and the key of its call."""
    method, key = method_and_key(frame)
    said = method if key is None else f"{method} {key!r}" if len(key) <= 100 else f"{method} {key[:100]!r}.."
    error = kind(f"{said}: {why}")
    error.method, error.key = method, key
    return error


def lost(frame: bytes, why: str) -> DchmError:
    """What a request that was sent and got no reply comes to."""
    return about(frame, OutcomeOpen if may_change(frame) else NotMade, why)


def ended(frame: bytes, outcome: Any) -> DchmError:
    """The outcome of a call as an exception, for a caller that can't be given the result."""
    if isinstance(outcome, DchmError):
        return outcome
    made = about(frame, Made, f"it was made, with the result {outcome!r:.100}")
    assert isinstance(made, Made)
    made.result = outcome
    return made


# ---- replies


def _value_of(body: bytes) -> Value | None:
    kind, size = body[1], len(body)
    if kind == 1 and size == 10:
        number: int = _NUMBER.unpack_from(body, 1)[1]
        return number
    if kind == 0 and size == 2:
        return None
    if kind == 2 and size >= 4 and size == 4 + int.from_bytes(body[2:4], "big"):
        try:
            return body[4:].decode()
        except UnicodeDecodeError as error:
            raise BadReply(f"bytes that are no reply: {error}") from error
    raise BadReply(f"bytes that are no reply: {body[:16].hex(' ')}")


def _checked(method: int, value: Value | None) -> Any:
    """The result of a method of which not each value is one."""
    if not isinstance(value, _KINDS[method]) or _STATUSES[method] == _IS_SO and value not in (0, 1):
        raise BadReply(f"a reply that {METHOD_NAMES[method]} doesn't have: {value!r:.40}")
    return value == 1 if _STATUSES[method] == _IS_SO else value


def _failure(frame: bytes, status: int, value: Value | None) -> DchmError:
    """The exception that a reply of another status stands for, which isn't raised."""
    if status == _FAULT and frame[2] in _MAY_FAULT and isinstance(value, int) and value in FAULTS:
        return about(frame, FAULTS[value], f"fault {value} {FAULTS[value].__name__}")
    if status == _FAILED and value is None:
        return lost(frame, "refused 9 Failed: the store has failed; the server has to be restarted")
    if status <= _REFUSED or value is not None:
        raise BadReply(f"a reply of another method: status {status} with {value!r:.40}")
    number = status - _REFUSED
    kind = REFUSALS.get(number, Refused)
    refused = about(frame, kind, f"refused {number} {kind.__name__}")
    assert isinstance(refused, Refused)
    refused.number = number
    return refused


def result(frame: bytes, body: bytes) -> Any:
    """What the body of a reply says of its request: a value, a bool or an exception, which isn't raised.

    A BadReply is raised if the body is no reply, or none that the method of the request can have.
    """
    status, method, value = body[0], frame[2], _value_of(body)
    if status == _PLAIN[method]:
        return value
    return _checked(method, value) if status == _STATUSES.get(method) else _failure(frame, status, value)
