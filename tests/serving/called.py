"""The base of the tests that look at the system's calls of a program, or let them go wrong, by `tests/faults.c`."""
import contextlib
import os

from harness.faulty import NO_COMPILER, Page, library
from harness.places import read
from harness.servers import temporary_directory
from harness.suite import is_ci
from serving.runs import Process

# No call has this number.
TO_THE_END = 1 << 32


class Called(Process):
    """A test of processes whose calls on the files of their directory are told. Without a compiler it is skipped."""

    @classmethod
    def setUpClass(cls):
        stack = contextlib.ExitStack()
        cls.addClassCleanup(stack.close)
        cls.library = library(stack.enter_context(temporary_directory()))

    def setUp(self):
        super().setUp()
        if not self.library:
            (self.fail if is_ci() else self.skipTest)(NO_COMPILER)
        self.trace = self.directory + ".trace"
        self.page = Page(self.directory + ".page")

    def environment(self, call="", how="", file="", first=1, last=0):
        """Of a program whose calls of this kind go wrong so, from the first number to the last; if left out, none does."""
        words = {"LD_PRELOAD": self.library, "FAULT_PAGE": self.page.path, "FAULT_DIRECTORY": self.directory,
                 "FAULT_TRACE": self.trace, "FAULT_CALL": call, "FAULT_HOW": how, "FAULT_FILE": file, "FAULT_FROM": first,
                 "FAULT_TO": last}
        return {**os.environ, **{name: str(word) for name, word in words.items() if word}}

    def calls(self):
        """The calls so far, each with its file."""
        return [tuple(line.split()) for line in read(self.trace).splitlines()]
