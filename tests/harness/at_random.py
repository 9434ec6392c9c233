"""Requests, and directories by docs/FORMATS.md, made at random, and damage to the files of one.

`pick` is what the choices come of.
"""
from harness import files as formats
from harness import plain
from harness.plain import Function, Method, key_bytes

KEYS = ("", "a", "b", "Aa", "BB", "AaAa", "BBBB", "AaBB", "key", "ключ", "\U0001f511", "x" * 255)
# Longer ones, which only requests and files of version 2 may have.
LONG_KEYS = ("x" * 256, "é" * 2047, "x" * 4095)
# By the bytes that a key's length takes.
KEYS_OF_WIDTH = {1: KEYS, 2: KEYS + LONG_KEYS}
FEW_KEYS = ("", "a", "b", "Aa", "BB", "hello")
FEW_VALUES = (-(1 << 63), (1 << 63) - 1, -1, 0, 1, 7, -7, "", "x", "yz")
# A request of the whole map is made alone, so it is seldom.
SOME_METHODS = 5 * (*plain.READS, *sorted(plain.CHANGES)) + plain.WHOLE_MAP
# Numbers that a damaged field is given, besides those near the one that it has.
NUMBERS = (0, 1, 2, 255, 256, 4096, 4097, 65535, 65536, (1 << 31) - 1, (1 << 32) - 1, (1 << 63) - 1, (1 << 63),
           (1 << 64) - 1)


def random_value(pick):
    if pick.random() < 0.6:
        return pick.choice((0, 1, -1, pick.getrandbits(63), -(1 << 63), (1 << 63) - 1))
    return pick.choice(("", "t", "text", "é" * pick.randrange(40), "x" * pick.choice((1, 300, 4096))))


def argument_bytes(pick, method):
    """Random arguments of a change behind its key."""
    value, other = (plain.value_bytes(random_value(pick)) for _ in range(2))
    if method in plain.TAKE_A_VALUE:
        return value
    if method == Method.remove:
        return b""
    if method == Method.replaceIf:
        return value + other
    if method in plain.COMPUTE and pick.random() < 0.2:
        value = b"\0"
    return bytes([pick.choice(tuple(Function))]) + value


def random_change(pick, keys):
    """The method of a change, its key, and the bytes of its arguments."""
    method = pick.choice((Method.put, Method.put, Method.put, *sorted(plain.CHANGES)))
    return method, pick.choice(keys), argument_bytes(pick, method)


def random_record(pick, key_width):
    """A change whose key's length takes so many bytes."""
    return formats.record(*random_change(pick, KEYS_OF_WIDTH[key_width]), key_width)


def random_request(pick, key_width):
    if pick.random() < 0.1:
        threshold = pick.choice(NUMBERS[:4]).to_bytes(8, "big")
        value = plain.value_bytes(random_value(pick))
        return pick.choice((bytes([Method.count]), bytes([Method.reduce, pick.choice(tuple(Function))]) + threshold,
                            bytes([Method.search]) + threshold + value))
    if pick.random() < 0.4:
        method = pick.choice(plain.READS)
        body = bytes([method]) + key_bytes(pick.choice(KEYS_OF_WIDTH[key_width]), key_width)
        return body + (plain.value_bytes(random_value(pick)) if method == Method.getOrDefault else b"")
    return random_record(pick, key_width)


def random_call(pick):
    """A request of few keys and few values, so that they meet. Some arguments are absent, also where none may be."""
    def value():
        return None if pick.random() < 0.25 else pick.choice(FEW_VALUES)

    method, function, threshold = pick.choice(SOME_METHODS), pick.choice(tuple(Function)), pick.choice(NUMBERS[:4])
    if method == Method.reduce:
        arguments = function, threshold
    elif method == Method.search:
        arguments = threshold, value()
    elif method == Method.replaceIf:
        arguments = value(), value()
    elif method in (*plain.COMPUTE, Method.merge):
        arguments = function, value()
    elif method in (*plain.TAKE_A_VALUE, Method.getOrDefault):
        arguments = (value(),)
    else:
        arguments = ()
    return method, None if method in plain.WHOLE_MAP else pick.choice(FEW_KEYS), arguments


def section_at(changes, mark, stripe, stripes):
    """The mark of a stripe, and its entries after so many changes in the order of their keys."""
    store = plain.Map()
    for change in changes[:mark]:
        record = formats.record(*change, plain.REQUEST_KEY_WIDTH)
        store.call(plain.record_at(plain.Bytes(record), plain.REQUEST_KEY_WIDTH))
    own = [entry for entry in store.entries.items() if plain.stripe_of(entry[0], stripes) == stripe]
    return mark, sorted(own, key=lambda entry: entry[0].encode())


def log(pick, version, generation, low, changes, ends_with=None):
    """A log of a version with these changes in batches, which has ended or not; behind its last gate anything may stand."""
    records = [formats.record(*change, plain.FILE_KEY_WIDTHS[version]) for change in changes]
    content, at = formats.log_header(version, generation, low), 0
    while at < len(records):
        count = pick.randrange(1, 6)
        content += formats.batch(low + at, records[at:at + count])
        at += count
    if ends_with is not None:
        content += formats.log_end(ends_with)
    return content + bytes([pick.choice((0, 0, 0xA4, 0xFF))]) + pick.randbytes(pick.choice((0, 0, 1, 40)))


def directory(pick):
    """The four files of a store of some generation, whose log may be followed by another, each of some version."""
    stripes = pick.choice((1, 2, 4, 16, 16, 64, 256))
    generation = pick.choice((0, 1, 2, 3, 1000, (1 << 64) - 2))
    versions = [pick.choice(list(plain.FILE_KEY_WIDTHS)) for _ in range(3)]
    keys = KEYS_OF_WIDTH[min(plain.FILE_KEY_WIDTHS[version] for version in versions)]
    changes = [random_change(pick, keys) for _ in range(pick.randrange(30))]
    low = pick.randrange(len(changes) + 1) if generation else 0
    committed = pick.randrange(low, len(changes) + 1)
    marks = [pick.randrange(low, committed + 1) if generation else 0 for _ in range(stripes)]
    sections = [section_at(changes, mark, stripe, stripes) for stripe, mark in enumerate(marks)]
    files = [b"", b"", b"", b""]
    files[generation % 2] = formats.checkpoint(versions[0], generation, low, sections)
    files[1 - generation % 2] = pick.choice((b"", b"\0" * 36, pick.randbytes(50), b"\0" + files[generation % 2][1:]))
    end = max([committed, *marks])
    middle = pick.randrange(low, end + 1)
    if pick.random() < 0.4:
        files[2 + generation % 2] = log(pick, versions[1], generation, low, changes[low:middle], generation + 1)
        files[2 + (generation + 1) % 2] = log(pick, versions[2], generation + 1, middle, changes[middle:end])
    else:
        files[2 + generation % 2] = log(pick, versions[1], generation, low, changes[low:end])
        files[2 + (generation + 1) % 2] = pick.choice((b"", pick.randbytes(60)))
    return files


def near(pick, number, width):
    wanted = pick.choice((number + 1, number - 1, number * 2, *NUMBERS))
    return wanted % (1 << (8 * width))


def with_damage(pick, files):
    """The files with one change, and what kind of change it is."""
    file = pick.choice([it for it in range(4) if files[it]] or [0])
    content = bytearray(files[file])
    files = list(files)
    at = pick.randrange(len(content) + 1)
    end = min(len(content), at + pick.choice((1, 2, 8, 40)))
    kind = pick.choice(("byte", "bit", "cut", "longer", "removed", "repeated", "number", "swapped", "gate", "zeros"))
    if kind == "byte" and at < len(content):
        content[at] = pick.randrange(256)
    elif kind == "bit" and at < len(content):
        content[at] ^= 1 << pick.randrange(8)
    elif kind == "cut":
        del content[at:]
    elif kind == "longer":
        content += pick.randbytes(pick.choice((1, 8, 100)))
    elif kind == "removed":
        del content[at:end]
    elif kind == "repeated":
        content[at:at] = content[at:end]
    elif kind == "number":
        width = pick.choice((2, 4, 8))
        number = int.from_bytes(content[at:at + width], "big")
        content[at:at + width] = near(pick, number, width).to_bytes(width, "big")[:len(content) - at]
    elif kind == "gate" and at < len(content):
        content[at] = 0xA5
    elif kind == "zeros":
        content[at:end] = bytes(end - at)
    files[file] = bytes(content)
    if kind == "swapped":
        other = pick.randrange(4)
        files[file], files[other] = files[other], files[file]
    return files, kind
