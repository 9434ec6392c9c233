"""Frames of requests and replies, by a second reading of docs/PROTOCOL.md."""
from harness.plain import (BAD_FRAME, FRAME_LIMIT, READS, REDUCING, REQUEST_KEY_WIDTH, UNKNOWN_FUNCTION, WHOLE_MAP, Bytes,
                           Function, Map, Method, Refused, key_bytes, record_at, value_bytes)


def frame(body):
    return len(body).to_bytes(2, "big") + body


def argument_bytes(method, arguments):
    """The arguments behind a method and its key. Of the whole map the threshold is a number without a kind."""
    if method == Method.reduce:
        return bytes([arguments[0]]) + arguments[1].to_bytes(8, "big")
    if method == Method.search:
        return arguments[0].to_bytes(8, "big") + value_bytes(arguments[1])
    return b"".join(bytes([it]) if isinstance(it, Function) else value_bytes(it) for it in arguments)


def body_of(request):
    """The body of the frame of a request; one of the whole map has no key."""
    method, key, arguments = request
    return bytes([method]) + (b"" if key is None else key_bytes(key)) + argument_bytes(method, arguments)


def whole_map_at(read):
    """A request of the whole map: its method, no key, its arguments."""
    method = read.number(1)
    if method == Method.count:
        return method, None, ()
    if method == Method.search:
        return method, None, (read.number(8), read.value())
    function = read.number(1)
    if function not in REDUCING:
        raise Refused(UNKNOWN_FUNCTION)
    return method, None, (function, read.number(8))


def request_of(body):
    """The request of a frame's body."""
    read = Bytes(body)
    if body[0] in READS:
        method, key = read.number(1), read.key(REQUEST_KEY_WIDTH)
        request = method, key, (read.value(),) if method == Method.getOrDefault else ()
    elif body[0] in WHOLE_MAP:
        request = whole_map_at(read)
    else:
        request = record_at(read, REQUEST_KEY_WIDTH)
    if read.rest():
        raise Refused(BAD_FRAME)
    return request


def reply_bytes(status, value):
    return frame(bytes([status]) + value_bytes(value))


def refusal_bytes(number):
    return reply_bytes(0x80 + number, None)


def dialogue(stream, kind=Map):
    """The replies of a new map to all that a stream has, up to and with the first of status 86."""
    store, replies, read = kind(), [], Bytes(stream)
    while read.rest() >= 2:
        length = read.number(2)
        if not 1 <= length <= FRAME_LIMIT:
            return b"".join([*replies, refusal_bytes(BAD_FRAME)])
        if read.rest() < length:
            break
        try:
            replies.append(reply_bytes(*store.call(request_of(read.take(length)))))
        except Refused as refused:
            replies.append(refusal_bytes(refused.number))
            if refused.number == BAD_FRAME:
                break
    return b"".join(replies)
