"""Directories of maps, their servers and the clients of these, and the calls that go wrong in a case."""
import contextlib
import dataclasses
import os
import threading

from harness.counters import COUNTERS, Client, faults_of, values_of
from harness.faulty import NEVER, Page
from harness.files import GATE, read_files
from harness.places import read
from harness.servers import Connection, Dchm, dchm, kill, run_program, temporary_directory

CONNECTIONS = 8
# The merges of a client that is served to its end.
REQUESTS = 30
# With few stripes and a small log a checkpoint has few calls, and checkpoints and other logs come soon.
STRIPES = ("--stripes", "4")
SMALL = (*STRIPES, "--checkpoint-bytes", "1024")
# No call has this number.
TO_THE_END = 1 << 62


class Wrong(Exception):
    """A case that failed, and why."""


def check(holds, why):
    if not holds:
        raise Wrong(why)


@dataclasses.dataclass(frozen=True)
class Fault:
    """Which calls go wrong, and how. `tests/faults.c` says what each word means."""
    call: str = ""
    how: str = ""
    file: str = ""
    first: int = 1
    last: int = 0
    one_in: int = 0
    seed: int = 0

    def environment(self):
        words = {"FAULT_CALL": self.call, "FAULT_HOW": self.how, "FAULT_FROM": self.first,
                 "FAULT_TO": self.last or self.first, "FAULT_MEMORY": self.one_in, "FAULT_SEED": self.seed}
        if self.file:
            words["FAULT_FILE"] = self.file
        return {name: str(word) for name, word in words.items() if word}

    def __str__(self):
        place = f" of {self.file}" if self.file else ""
        behind = " and all behind it" if self.last == TO_THE_END else ""
        return f"{self.how} at {self.call} {self.first}{place}{behind}"


class Room:
    """A directory of a map of its own."""
    # The program, and the library that lets its calls go wrong, if there is one.
    program = library = None

    def __init__(self, place):
        self.place = os.path.realpath(place)
        self.directory = os.path.join(self.place, "map")
        self.page = None

    def environment(self, fault):
        """The environment of a program that has the fault, whose counters begin anew."""
        if fault is None:
            return None
        self.page = Page(os.path.join(self.place, "page"))
        own = {"LD_PRELOAD": self.library, "FAULT_PAGE": self.page.path, "FAULT_DIRECTORY": self.directory}
        return {**os.environ, **own, **fault.environment()}

    def refuse_no_memory(self):
        if self.page:
            self.page.refuse_memory(NEVER)

    def run(self, *words, fault=None):
        """One run of the program: its status, standard output and standard error."""
        return run_program(self.program, *words, env=self.environment(fault))

    def init(self):
        os.mkdir(self.directory)
        made = self.run("init", self.directory, *STRIPES)
        check(made[0] == 0, f"no directory was made: {made}")

    def served(self, fault=None, words=SMALL, limits=()):
        return dchm(self.program, self.directory, CONNECTIONS, words, limits, self.environment(fault))

    def said(self):
        """What the last server wrote on standard error."""
        return read(self.directory + ".errors")

    def told(self):
        """How many records say that the store has failed."""
        return sum("the store has failed" in record for record in self.said().splitlines())

    def prefix(self):
        """How many changes the files stand for, as `dchm check` says."""
        status, printed, said = self.run("check", self.directory)
        check(status == 0, f"check: {said!r}")
        return int(printed.splitlines()[2].split()[1])

    def files(self):
        """The bytes of each file that is there."""
        return read_files(self.directory)

    def has_checkpoints(self):
        """Whether the gates of both checkpoints are open."""
        files = self.files()
        return all(files[name].startswith(GATE) for name in ("ckpt-a", "ckpt-b"))

    def keeps(self, clients):
        """Each reply of the clients, which alone changed the map since it was made, is kept."""
        prefix = self.prefix()
        with self.served() as (child, port):
            after = values_of(port)
            with contextlib.closing(Connection(Dchm, port)) as connection:
                number = connection.ask("merge", Dchm.request("merge", COUNTERS[0], 1))
            kill(child)
        are_kept(dict.fromkeys(COUNTERS, 0), after, clients)
        check(sum(after.values()) == prefix, f"the counters have {after}, and {prefix} changes were made")
        check(number == after[COUNTERS[0]] + 1, f"one more than {after[COUNTERS[0]]} is {number}")


@contextlib.contextmanager
def room():
    with temporary_directory() as place:
        yield Room(place)


def are_kept(before, after, clients):
    wrong = [fault for key in COUNTERS for fault in faults_of(key, before[key], after[key], clients)]
    check(not wrong, "; ".join(wrong))


def work(port, requests):
    """The clients of one run, once they have ended."""
    clients = [Client(index, port, requests, threading.Event()) for index in range(CONNECTIONS)]
    for client in clients:
        client.start()
    for client in clients:
        client.join()
    wrong = [client.failure for client in clients if client.failure]
    check(not wrong, "; ".join(wrong))
    return clients


def none_refused(clients):
    refused = [client.index for client in clients if client.has_failed]
    check(not refused, f"clients that were refused a call: {refused}")
