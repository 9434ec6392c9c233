"""A plain second reading of the map and of the bytes of its changes, in Python alone: what the program is compared with.

`frames` goes on with requests and replies, `opening` with the files of a directory. docs/FORMATS.md and docs/PROTOCOL.md say
the same in words. Nothing in the three is taken from the program's output.
"""
import enum

KEY_LIMIT, TEXT_LIMIT, FRAME_LIMIT = 4095, 4096, 16384
# How many bytes the length of a key takes in the files of each version, and in requests.
FILE_KEY_WIDTHS, REQUEST_KEY_WIDTH = {1: 1, 2: 2}, 2
OPEN_GATE = 0xA5
# Refusals by number, and their names as the program prints them.
NULL_VALUE, KEY_TOO_LONG, VALUE_TOO_LONG, UNKNOWN_METHOD, UNKNOWN_FUNCTION, BAD_FRAME = 1, 2, 3, 4, 5, 6
NO_MEMORY, FAILED = 7, 9
NOT_FORMATTED, DAMAGED, WRONG_VERSION, NOT_TEXT = 11, 12, 13, 18
WAS, NOW, DID, FAULT = 0, 1, 2, 3
WRONG_KIND, TOO_LONG, OVERFLOW = 1, 2, 3
# What the program prints of a fault.
FAULTS = {WRONG_KIND: "1 WrongKind", TOO_LONG: "2 TooLong", OVERFLOW: "3 Overflow"}


class Method(enum.IntEnum):
    """The methods, named as `dchm call` names them."""
    get = 1
    getOrDefault = 2
    containsKey = 3
    put = 16
    putIfAbsent = 17
    remove = 18
    removeIf = 19
    replace = 20
    replaceIf = 21
    compute = 22
    computeIfAbsent = 23
    computeIfPresent = 24
    merge = 25
    count = 32
    reduce = 33
    search = 34


class Function(enum.IntEnum):
    """The functions, named as `dchm call` names them."""
    CONST = 1
    DROP = 2
    KEEP = 3
    SUM = 4
    MAX = 5
    MIN = 6
    CONCAT = 7
    SUM_NONZERO = 8
    SUM_EXACT = 9


FUNCTIONS = frozenset(Function)
READS = (Method.get, Method.getOrDefault, Method.containsKey)
CHANGES = frozenset(method for method in Method if Method.put <= method <= Method.merge)
WHOLE_MAP = (Method.count, Method.reduce, Method.search)
TAKE_A_VALUE = (Method.put, Method.putIfAbsent, Method.removeIf, Method.replace)
COMPUTE = (Method.compute, Method.computeIfAbsent, Method.computeIfPresent)
REDUCING = (Function.SUM, Function.MAX, Function.MIN)


class Refused(Exception):
    """A refusal with its number; of damage also the file and the offset."""

    def __init__(self, number, *place):
        super().__init__(number, *place)
        self.number, self.place = number, place


class Fault(Exception):
    """A function's fault."""


# ---- bytes from left to right


class Bytes:
    """Reads bytes from left to right; if they end too early, it refuses with `BAD_FRAME`."""

    def __init__(self, content, at=0):
        self.content, self.at = content, at

    def take(self, count):
        if len(self.content) - self.at < count:
            raise Refused(BAD_FRAME)
        self.at += count
        return self.content[self.at - count:self.at]

    def number(self, width, signed=False):
        return int.from_bytes(self.take(width), "big", signed=signed)

    def text(self, count):
        try:
            return self.take(count).decode("utf-8")
        except UnicodeDecodeError:
            raise Refused(NOT_TEXT) from None

    def key(self, width):
        count = self.number(width)
        if count > KEY_LIMIT:
            raise Refused(KEY_TOO_LONG)
        return self.text(count)

    def value(self, may_be_absent=False):
        kind = self.number(1)
        if kind == 0:
            if may_be_absent:
                return None
            raise Refused(NULL_VALUE)
        if kind == 1:
            return self.number(8, signed=True)
        if kind == 2:
            count = self.number(2)
            if count > TEXT_LIMIT:
                raise Refused(VALUE_TOO_LONG)
            return self.text(count)
        raise Refused(BAD_FRAME)

    def function(self):
        number = self.number(1)
        if number not in FUNCTIONS:
            raise Refused(UNKNOWN_FUNCTION)
        return number

    def rest(self):
        return len(self.content) - self.at


def key_bytes(key, width=REQUEST_KEY_WIDTH):
    """A key behind its length, which takes so many bytes."""
    content = key if isinstance(key, bytes) else key.encode()
    return len(content).to_bytes(width, "big") + content


def value_bytes(value):
    if value is None:
        return b"\0"
    if isinstance(value, int):
        return b"\1" + value.to_bytes(8, "big", signed=True)
    text = value.encode()
    return b"\2" + len(text).to_bytes(2, "big") + text


def arguments_at(read, method):
    """The arguments of a change behind its key."""
    if method in TAKE_A_VALUE:
        return (read.value(),)
    if method == Method.remove:
        return ()
    if method == Method.replaceIf:
        return read.value(), read.value()
    if method in COMPUTE:
        return read.function(), read.value(may_be_absent=True)
    return read.function(), read.value()


def record_at(read, key_width):
    """A change: its method, its key behind a length of this many bytes, its arguments."""
    method = read.number(1)
    if method not in CHANGES:
        raise Refused(UNKNOWN_METHOD)
    key = read.key(key_width)
    return method, key, arguments_at(read, method)


# ---- the map


def wrapped(number):
    return (number + (1 << 63)) % (1 << 64) - (1 << 63)


def applied(function, old, arg):
    """What the function gives of the old value and the argument, each of which may be absent."""
    if function == Function.CONST:
        return arg
    if function == Function.DROP:
        return None
    if function == Function.KEEP:
        return old
    kind = str if function == Function.CONCAT else int
    if not isinstance(arg, kind) or (old is not None and not isinstance(old, kind)):
        raise Fault(WRONG_KIND)
    if function == Function.CONCAT:
        text = arg if old is None else old + arg
        if len(text.encode()) > TEXT_LIMIT:
            raise Fault(TOO_LONG)
        return text
    if function in (Function.MAX, Function.MIN):
        return arg if old is None else max(old, arg) if function == Function.MAX else min(old, arg)
    result = arg if old is None else old + arg
    if function == Function.SUM_EXACT and result != wrapped(result):
        raise Fault(OVERFLOW)
    result = wrapped(result)
    return None if function == Function.SUM_NONZERO and result == 0 else result


def stepped(old, method, arguments):
    """The value of the key after the change, and the reply: a status and a value."""
    if method == Method.put:
        return arguments[0], (WAS, old)
    if method == Method.putIfAbsent:
        return (arguments[0] if old is None else old), (WAS, old)
    if method == Method.remove:
        return None, (WAS, old)
    if method == Method.replace:
        return (None if old is None else arguments[0]), (WAS, old)
    if method in (Method.removeIf, Method.replaceIf):
        is_equal = old is not None and type(old) is type(arguments[0]) and old == arguments[0]
        after = None if method == Method.removeIf else arguments[1]
        return (after if is_equal else old), (DID, int(is_equal))
    function, arg = arguments
    if method == Method.computeIfAbsent and old is not None or method == Method.computeIfPresent and old is None:
        return old, (NOW, old)
    if method == Method.merge and old is None:
        return arg, (NOW, arg)
    try:
        after = applied(function, old, arg)
    except Fault as fault:
        return old, (FAULT, fault.args[0])
    return after, (NOW, after)


def answered(old, method, arguments):
    """The reply to a read."""
    if method == Method.get:
        return NOW, old
    if method == Method.getOrDefault:
        return NOW, arguments[0] if old is None else old
    return DID, int(old is not None)


class Map:
    """A map of one thread."""

    def __init__(self):
        self.entries = {}

    def call(self, request):
        method, key, arguments = request
        if key is None:
            # A map in memory has no views.
            raise Refused(UNKNOWN_METHOD)
        old = self.entries.get(key)
        if method in READS:
            return answered(old, method, arguments)
        after, reply = stepped(old, method, arguments)
        if after is None:
            self.entries.pop(key, None)
        else:
            self.entries[key] = after
        return reply


def reduced(entries, function):
    """The values, folded by the function in rising byte order of their keys."""
    found = None
    try:
        for key in sorted(entries, key=str.encode):
            found = applied(function, found, entries[key])
    except Fault as fault:
        return FAULT, fault.args[0]
    return NOW, found


def viewed(entries, method, arguments):
    """What a view returns of its entries. A threshold changes nothing."""
    if method == Method.count:
        return NOW, len(entries)
    if method == Method.reduce:
        return reduced(entries, arguments[0])
    _, sought = arguments
    keys = [key for key, value in entries.items() if type(value) is type(sought) and value == sought]
    return NOW, min(keys, key=str.encode, default=None)


class Running(Map):
    """A map of one thread that has views."""

    def call(self, request):
        method, key, arguments = request
        return super().call(request) if key is not None else viewed(self.entries, method, arguments)


# ---- the stripe of a key


def stripe_of(key, stripes):
    """By Java 17's `String.hashCode`, spread as in its `ConcurrentHashMap`."""
    units = key.encode("utf-16-be", "surrogatepass")
    code = 0
    for at in range(0, len(units), 2):
        code = (code * 31 + int.from_bytes(units[at:at + 2], "big")) % (1 << 32)
    return ((code ^ (code >> 16)) & 0x7FFFFFFF) % stripes
