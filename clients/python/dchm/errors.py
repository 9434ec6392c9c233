"""What a call raises if it has no result. Programs take these from dchm."""
from __future__ import annotations

from collections.abc import Sequence
from typing import Any


class DchmError(Exception):
    """A call that has no result. `method` and `key` are those of the call; None if it has none."""
    method: str | None = None
    key: str | None = None


class NotMade(DchmError):
    """Nothing was sent, or the call changes nothing. It may be made again."""


class Closed(NotMade):
    """The client was closed, and nothing was sent. Another client may make the call."""


class OutcomeOpen(DchmError):
    """A change was sent and got no reply, or the store failed: it was made, may be made yet, or never is."""


class Made(DchmError):
    """A call was made whose caller was interrupted or cancelled before it had the result, which is `result`."""
    result: Any = None


class WrongValue(DchmError, TypeError):
    """A view of one kind of values met the other kind. The call was made."""


class PipelineFailed(DchmError):
    """Calls of a pipeline have no result. `replies` has of each call its result or its exception, in their order.

    After a call without a reply (NotMade, OutcomeOpen) the pipeline sends no more: those behind are NotMade.
    """

    def __init__(self, replies: Sequence[Any]) -> None:
        self.replies = list(replies)
        self.failures = [reply for reply in self.replies if isinstance(reply, DchmError)]
        first = self.failures[0]
        super().__init__(f"{len(self.failures)} of {len(self.replies)} calls have no result; the first:"
                         f" {type(first).__name__}: {first}")
        self.method, self.key = first.method, first.key

    def __reduce__(self) -> tuple[type[PipelineFailed], tuple[list[Any]]]:
        return type(self), (self.replies,)


class Refused(DchmError):
    """The server refused the call, and nothing changed. `number` says why; 7 alone may be tried again."""
    number = 0


class NullValue(Refused):
    """Absent, where a value is needed."""
    number = 1


class KeyTooLong(Refused):
    """A key above 4,095 bytes."""
    number = 2


class ValueTooLong(Refused):
    """A text above 4,096 bytes."""
    number = 3


class UnknownMethod(Refused):
    """The server doesn't know the method."""
    number = 4


class UnknownFunction(Refused):
    """The server doesn't know the function, or not in this call."""
    number = 5


class BadFrame(Refused):
    """The request is none; the server ends the connection."""
    number = 6


class NoMemory(Refused):
    """The server found no memory. The call may be made again."""
    number = 7


class TicketsSpent(Refused):
    """The store has made all the changes that it can; reads are still answered."""
    number = 10


class NotText(Refused):
    """A key or a text that isn't UTF-8."""
    number = 18


class Fault(DchmError):
    """The function faulted, and nothing changed."""


class WrongKind(Fault, TypeError):
    """The function doesn't take these values."""


class TooLong(Fault, ValueError):
    """The text would have more than 4,096 bytes."""


class Overflow(Fault, OverflowError):
    """The sum has more than 64 bits."""


def outcome(error: BaseException | None) -> DchmError | None:
    """What is true of the call that an interrupt or a cancel ended: NotMade, OutcomeOpen, Made, or what the server said.

    It is a cause of the error, such as of a KeyboardInterrupt, of a CancelledError as the task's own code or the first that
    awaits the task meets it, or of the TimeoutError of asyncio. None if the error came while no call was under way, or just
    as one came back.
    """
    seen: set[int] = set()
    while error is not None and not isinstance(error, DchmError) and id(error) not in seen:
        seen.add(id(error))
        error = error.__cause__ or error.__context__
    return error if isinstance(error, DchmError) else None


def attach(error: BaseException, told: DchmError) -> None:
    """Makes it the last cause of an error what is true of the call that the error ended."""
    while error.__cause__ is not None and not isinstance(error.__cause__, DchmError):
        error = error.__cause__
    if not isinstance(error, DchmError):
        error.__cause__ = told


FAULTS: dict[int, type[Fault]] = {1: WrongKind, 2: TooLong, 3: Overflow}
REFUSALS: dict[int, type[Refused]] = {kind.number: kind for kind in (
    NullValue, KeyTooLong, ValueTooLong, UnknownMethod, UnknownFunction, BadFrame, NoMemory, TicketsSpent, NotText)}
