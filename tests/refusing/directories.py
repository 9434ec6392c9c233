"""The files of the directories that the program finds."""
from harness import files, plain
from harness.plain import Method
from harness.words import FUNCTIONS, value_in
from refusing.cases import Case, Store

OLD_VERSION, VERSION = 1, 2


def record_bytes(version, text):
    """The record of a change in the files of a version."""
    name, key, *words = text.split(" ")
    words = [bytes([FUNCTIONS[word]]) if word in FUNCTIONS else plain.value_bytes(value_in(word)) for word in words]
    return files.record(Method[name], key, b"".join(words), plain.FILE_KEY_WIDTHS[version])


def log_bytes(version, generation, low, batches):
    """A log of these batches of changes."""
    content = files.log_header(version, generation, low)
    for batch in batches:
        content += files.batch(low, [record_bytes(version, text) for text in batch])
        low += len(batch)
    return content


def first_files(changes, stripes):
    """The files of a directory whose changes are all in its first log."""
    return {"ckpt-a": files.checkpoint(VERSION, 0, 0, [(0, [])] * stripes), "ckpt-b": b"",
            "log-a": log_bytes(VERSION, 0, 0, [changes] if changes else []) + files.CLOSED_GATE, "log-b": b""}


def section_of(changes, stripe, stripes):
    """The count of these changes as the mark of a stripe, and its entries after them."""
    store = Store(Case(" | ".join([f"call {stripes}", *changes])))
    return len(changes), [(key, store.map.entries[key]) for key in store.entries(stripe)]


def later_files(version, changes):
    """The files of six changes: a checkpoint of generation 1 at the marks 3 and 4, its log from ticket 2 on, which has
    ended, and the log of generation 2 from ticket 5 on.
    """
    sections = [section_of(changes[:3], 0, 2), section_of(changes[:4], 1, 2)]
    first = log_bytes(version, 1, 2, [changes[2:4], changes[4:5]]) + files.log_end(2)
    return {"ckpt-a": b"", "ckpt-b": files.checkpoint(version, 1, 2, sections),
            "log-a": log_bytes(version, 2, 5, [changes[5:]]) + files.CLOSED_GATE, "log-b": first + files.CLOSED_GATE}
