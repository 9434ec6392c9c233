"""The library of tests/faults.c, which lets system calls and allocations of a program fail, and what it tells."""
import collections
import mmap
import os
import shutil
import struct
import subprocess

from harness.places import in_tree

SOURCE = in_tree("tests", "faults.c")
NO_COMPILER = "there is no C compiler (cc)"
# When memory is refused: not, from now on, or from when a server says that it listens.
NEVER, NOW, ONCE_IT_LISTENS = range(3)
Counts = collections.namedtuple("Counts", "calls faults after begun asked refused freed file millis")
# For as long as no test takes: a sync lasts until the test lets it end.
FOR_EVER = 1 << 40


class Page:
    """The counters that the library shares with the test: `struct page` of `tests/faults.c`."""
    FORM = struct.Struct("<7Q32sQ")
    SIZES = struct.Struct("<512Q")
    BEGUN, FREED, MILLIS = 3 * 8, 6 * 8, 7 * 8 + 32

    def __init__(self, path):
        self.path = path
        with open(path, "w+b") as file:
            file.write(bytes(self.FORM.size + self.SIZES.size))
            file.flush()
            self.bytes = mmap.mmap(file.fileno(), self.FORM.size + self.SIZES.size)

    def counts(self):
        return Counts(*self.FORM.unpack(self.bytes[:self.FORM.size]))

    def sizes(self):
        """How many bytes each of the first allocations asked for that counted."""
        return self.SIZES.unpack(self.bytes[self.FORM.size:])[:self.counts().asked]

    def delay_syncs(self, millis):
        """From now on a sync lasts so much longer; one that is under way ends once it has."""
        self.bytes[self.MILLIS:self.FORM.size] = millis.to_bytes(8, "little")

    def refuse_memory(self, begins=NOW):
        self.bytes[self.BEGUN] = begins

    def free(self):
        """Calls that were held go on."""
        self.bytes[self.FREED] = 1


def library(place):
    """Compiles the library; returns its path, or nothing if there is no compiler."""
    path = os.path.join(place, "faults.so")
    if not shutil.which("cc"):
        return None
    subprocess.run(["cc", "-shared", "-fPIC", "-o", path, SOURCE], check=True)
    return path
