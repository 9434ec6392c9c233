"""The files of a directory: their names, reading and writing them, and the bytes that docs/FORMATS.md gives them."""
import os

from harness.plain import FILE_KEY_WIDTHS, OPEN_GATE, key_bytes, value_bytes

# Beside `lock`.
FILES = ("ckpt-a", "ckpt-b", "log-a", "log-b")
GATE = bytes([OPEN_GATE])
CLOSED_GATE = b"\0"
# The files of a program from before version 02: one stripe, and a put of 5 to the key a.
OLD_FILES = {name: bytes.fromhex(content) for name, content in {
    "ckpt-a": "A501" + 24 * "00" + "0001" + "000000000000000C" + 12 * "00",
    "ckpt-b": "",
    "log-a": "01" + 16 * "00" + "A5" + "0100000018" + 8 * "00" + "00000001" + "10016101" + "0000000000000005" + "00",
    "log-b": "",
}.items()}
# The same after a rotation, while a checkpoint is under way.
OLD_FILES_ROTATED = {
    **OLD_FILES,
    "log-a": OLD_FILES["log-a"][:-1] + bytes.fromhex("A5" + "0200000008" + "0000000000000001" + "00"),
    "log-b": bytes.fromhex("01" + "0000000000000001" + "0000000000000001" + "00"),
}


def read_file(directory, name):
    with open(os.path.join(directory, name), "rb") as file:
        return file.read()


def read_files(directory, names=FILES):
    """What the files that are there hold, by name."""
    return {name: read_file(directory, name) for name in names if os.path.exists(os.path.join(directory, name))}


def write_files(directory, files):
    for name, content in files.items():
        with open(os.path.join(directory, name), "wb") as file:
            file.write(content)


def record(method, key, arguments, width):
    """A change, the length of whose key takes so many bytes; its arguments are bytes."""
    return bytes([method]) + key_bytes(key, width) + arguments


def log_header(version, generation, low):
    return bytes([version]) + generation.to_bytes(8, "big") + low.to_bytes(8, "big")


def batch(first, records):
    """The frame of the changes from this ticket on, with the gate before it."""
    body = first.to_bytes(8, "big") + len(records).to_bytes(4, "big") + b"".join(records)
    return GATE + b"\1" + len(body).to_bytes(4, "big") + body


def log_end(generation):
    """The frame that names the log which follows, with the gate before it."""
    return GATE + b"\2" + (8).to_bytes(4, "big") + generation.to_bytes(8, "big")


def section(mark, entries, width):
    content = b"".join(key_bytes(key, width) + value_bytes(value) for key, value in entries)
    return mark.to_bytes(8, "big") + len(entries).to_bytes(4, "big") + content


def checkpoint(version, generation, low, sections):
    """A sealed checkpoint: of each stripe its mark, and its entries in the order of their keys."""
    body = b"".join(section(mark, entries, FILE_KEY_WIDTHS[version]) for mark, entries in sections)
    greatest = max(mark for mark, _ in sections)
    return (GATE + bytes([version]) + b"".join(number.to_bytes(8, "big") for number in (generation, low, greatest))
            + len(sections).to_bytes(2, "big") + len(body).to_bytes(8, "big") + body)
