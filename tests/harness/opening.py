"""What the files of a directory stand for, by a second reading of docs/FORMATS.md.

The files are ckpt-a, ckpt-b, log-a and log-b, in this order.
"""
import dataclasses

from harness.plain import (DAMAGED, FILE_KEY_WIDTHS, NOT_FORMATTED, OPEN_GATE, WRONG_VERSION, Bytes, Map, Refused, record_at,
                           stripe_of)


@dataclasses.dataclass
class Opened:
    generation: int
    stripes: int
    prefix: int
    entries: dict

    def text(self):
        return (f"generation {self.generation}\nstripes {self.stripes}\nprefix {self.prefix}\n"
                f"entries {len(self.entries)}\n")


def is_sealed(content):
    return len(content) >= 36 and content[0] == OPEN_GATE


def checked_head(files, file):
    content = files[file]
    if content[1] not in FILE_KEY_WIDTHS:
        raise Refused(WRONG_VERSION)
    generation = int.from_bytes(content[2:10], "big")
    if generation % 2 != file:
        raise Refused(DAMAGED, file, 2)
    return generation


def section_at(read, file, stripe, stripes, key_width):
    """The mark of the stripe's section, and its entries."""
    start = read.at
    try:
        mark, count = read.number(8), read.number(4)
    except Refused:
        raise Refused(DAMAGED, file, start) from None
    entries, last = {}, None
    for _ in range(count):
        start = read.at
        try:
            key, value = read.key(key_width), read.value()
        except Refused:
            raise Refused(DAMAGED, file, start) from None
        if (last is not None and key.encode() <= last) or stripe_of(key, stripes) != stripe:
            raise Refused(DAMAGED, file, start)
        entries[key], last = value, key.encode()
    return mark, entries


def checkpoint_in(files, file):
    """The low ticket, the stripes, the marks and the entries of a sealed checkpoint."""
    content = files[file]
    low, greatest = int.from_bytes(content[10:18], "big"), int.from_bytes(content[18:26], "big")
    stripes, length = int.from_bytes(content[26:28], "big"), int.from_bytes(content[28:36], "big")
    if stripes not in (1, 2, 4, 8, 16, 32, 64, 128, 256):
        raise Refused(DAMAGED, file, 26)
    if 36 + length > len(content):
        raise Refused(DAMAGED, file, 28)
    read, marks, entries = Bytes(content[:36 + length], 36), [], {}
    for stripe in range(stripes):
        mark, found = section_at(read, file, stripe, stripes, FILE_KEY_WIDTHS[content[1]])
        marks.append(mark)
        entries.update(found)
    if read.rest():
        raise Refused(DAMAGED, file, read.at)
    if max(marks) != greatest or min(marks) < low:
        raise Refused(DAMAGED, file, 18)
    return low, stripes, marks, entries


def batch_in(body, expected, key_width):
    """The changes of a batch whose frame has this body, or None if it is none that may come next."""
    read = Bytes(body)
    try:
        first, count = read.number(8), read.number(4)
        if first != expected or not 1 <= count <= 65536 or first + count >= 1 << 64 or len(body) > (1 << 20) - 5:
            return None
        records = [record_at(read, key_width) for _ in range(count)]
    except Refused:
        return None
    return None if read.rest() else records


def log_in(files, generation, low):
    """The changes of a log from its low ticket on, whether it has ended, and where its last gate stands."""
    file = 2 + generation % 2
    content, changes, at = files[file], [], 17
    if len(content) < 18:
        raise Refused(DAMAGED, file, 0)
    if content[0] not in FILE_KEY_WIDTHS:
        raise Refused(WRONG_VERSION)
    for place, wanted in ((1, generation), (9, low)):
        if int.from_bytes(content[place:place + 8], "big") != wanted:
            raise Refused(DAMAGED, file, place)
    while content[at] == OPEN_GATE:
        kind, length = content[at + 1:at + 2], int.from_bytes(content[at + 2:at + 6], "big")
        body = content[at + 6:at + 6 + length]
        # A byte of the file, the next gate, follows the frame.
        if len(content) < at + 6 + length + 1:
            raise Refused(DAMAGED, file, at)
        if kind == b"\2":
            if length != 8 or int.from_bytes(body, "big") != generation + 1:
                raise Refused(DAMAGED, file, at)
            return changes, True, at
        records = batch_in(body, low + len(changes), FILE_KEY_WIDTHS[content[0]]) if kind == b"\1" else None
        if records is None:
            raise Refused(DAMAGED, file, at)
        changes += records
        at += 6 + length
    return changes, False, at


def opened(files):
    """What four files stand for; it raises `Refused` if they stand for nothing."""
    sealed = [file for file in (0, 1) if is_sealed(files[file])]
    if not sealed:
        raise Refused(NOT_FORMATTED)
    generation, file = max((checked_head(files, it), it) for it in sealed)
    low, stripes, marks, entries = checkpoint_in(files, file)
    changes, has_ended, gate = log_in(files, generation, low)
    last = generation
    if has_ended:
        last += 1
        more, has_ended, end = log_in(files, last, low + len(changes))
        changes += more
        if has_ended:
            raise Refused(DAMAGED, 2 + last % 2, end)
        gate = end
    prefix = low + len(changes)
    if prefix < max(marks):
        raise Refused(DAMAGED, 2 + last % 2, gate)
    store = Map()
    store.entries = entries
    for ticket, request in enumerate(changes, low):
        if ticket >= marks[stripe_of(request[1], stripes)]:
            store.call(request)
    return Opened(generation, stripes, prefix, store.entries)


NAMES = {NOT_FORMATTED: "NotFormatted", DAMAGED: "Damaged", WRONG_VERSION: "WrongVersion"}


def checked(files):
    """What `dchm check` prints of the four files: its output, or the refusal on standard error."""
    try:
        return opened(files).text()
    except Refused as refused:
        return " ".join(map(str, ("refused", refused.number, NAMES[refused.number], *refused.place))) + "\n"
