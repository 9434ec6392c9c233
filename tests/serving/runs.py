"""The runs of the program, and the base of the tests of its processes."""
import os

from harness.files import read_files
from harness.served import MapTest
from harness.servers import dchm, run_program
from harness.suite import named_program

PROGRAM = named_program()
# The clients of a server, and the calls of each.
CONNECTIONS, REQUESTS = 8, 50
# With a small log checkpoints fall into the run, and logs are followed by others.
SMALL_LOG = ("--checkpoint-bytes", "1024")
# What is said of a directory whose lock another process has.
IN_USE = "in use by another process"
# The record of a server that has opened a directory: its level, the module that wrote it, and its message.
PREFIX_RECORD = r"\[INFO  cmd_serve(?:::\w+)*\] prefix {}"


def run(*words, **options):
    """One run of the program: its status, standard output and standard error."""
    return run_program(PROGRAM, *words, **options)


def call_lines(port, lines):
    """One run of `dchm call -` on these lines: its status, standard output and standard error."""
    return run("call", "--port", str(port), "-", given=lines)


def files_of(directory):
    """What the files of a directory hold, by name."""
    return read_files(directory, sorted(os.listdir(directory)))


def prefix_of(directory):
    """How many changes the files of a directory stand for, as `dchm check` says."""
    status, printed, said = run("check", directory)
    if status:
        raise ValueError(f"check: {said!r}")
    return int(printed.splitlines()[2].removeprefix("prefix "))


def key_of(number):
    return f"text{number}"


class Process(MapTest):
    """A test of processes over a map of its own."""

    def served(self, *words, limits=()):
        return dchm(PROGRAM, self.directory, CONNECTIONS, words, limits)
