"""A client of `dchm serve`, of Python's standard library alone.

    import dchm
    with dchm.connect(7411) as server:             # a port of this machine, or the path of a Unix socket
        server.put("stock", 5)
        left = server.merge("stock", dchm.SUM, -2)
        with server.pipeline() as calls:           # sent together
            calls.put("a", 1)
            calls.get("a")
        print(calls.replies)                       # [None, 1]

A key is a str of at most 4,095 bytes of UTF-8. A value is an int of 64 bits or a str of at most 4,096 bytes. Anything
else is a TypeError, a ValueError or an OverflowError, and nothing is sent. What a call raises besides:

    NotMade       nothing was sent, or the call changes nothing; it may be made again. Closed: by another client
    Refused       the server refused; nothing changed. `number` says why, and 7 (NoMemory) alone may be tried again
    Fault         the function faulted; nothing changed: WrongKind, TooLong, Overflow
    OutcomeOpen   a change was sent and got no reply, or the store failed. It was made, may be made yet, or never is
    PipelineFailed  calls of a pipeline have no result; `replies` tells of each
    WrongValue    a view of one kind of values met the other kind; the call was made

outcome(error) says what is true of the call that a KeyboardInterrupt or a CancelledError ended. No change is ever sent twice. dchm.aio has the client for asyncio, dchm.testing a server for tests.
"""
from dchm.calls import Calls, Longs, Map, Texts
from dchm.client import Client, Pipeline, connect
from dchm.errors import (BadFrame, Closed, DchmError, Fault, KeyTooLong, Made, NoMemory, NotMade, NotText, NullValue,
                         OutcomeOpen, Overflow, PipelineFailed, Refused, TicketsSpent, TooLong, UnknownFunction, UnknownMethod,
                         ValueTooLong, WrongKind, WrongValue, outcome)
from dchm.wire import (CONCAT, CONST, DROP, KEEP, KEY_LIMIT, MAX, MIN, SUM, SUM_EXACT, SUM_NONZERO, TEXT_LIMIT, Address,
                       Function, Value)

# That of the server, which stands in crates/call_text/src/version.rt.
__version__ = "0.2.0"

__all__ = [
    "Calls", "Map", "Longs", "Texts", "Pipeline", "Client", "connect", "Address", "Function", "Value",
    "CONST", "DROP", "KEEP", "SUM", "MAX", "MIN", "CONCAT", "SUM_NONZERO", "SUM_EXACT", "KEY_LIMIT", "TEXT_LIMIT",
    "DchmError", "NotMade", "Closed", "OutcomeOpen", "PipelineFailed", "WrongValue", "Refused", "NullValue", "KeyTooLong",
    "ValueTooLong", "UnknownMethod", "UnknownFunction", "BadFrame", "NoMemory", "TicketsSpent", "NotText", "Fault",
    "WrongKind", "TooLong", "Overflow", "Made", "outcome",
]
