"""Where the program runs of which a request for memory is refused, and what came of its runs."""
import contextlib
import enum
import os
import shutil
import subprocess

from harness import files, plain
from harness.faulty import NEVER, Page

# Each case makes fewer requests for memory.
MOST_REQUESTS = 5_000
# No request has this number.
NONE = 1 << 62
# How often in a row nothing is refused before a case ends: the requests of a program with threads differ by a few.
LAST_RUNS = 2
# What a run raises that goes wrong: also one that hangs, and files that aren't those of a map.
ERRORS = OSError, RuntimeError, subprocess.SubprocessError, plain.Refused


class Room:
    """A folder with a directory of a map, and the environment of a program that runs there."""

    def __init__(self, place, program, preload):
        self.place, self.program, self.preload = place, program, preload
        self.directory = os.path.join(place, "map")
        self.errors = self.directory + ".errors"
        self.page = None

    def environment(self, number, begins=NEVER):
        """That of a program whose request of this number is refused, of those behind what begins them."""
        self.page = Page(os.path.join(self.place, "page"))
        self.page.refuse_memory(begins)
        return {**os.environ, "LD_PRELOAD": self.preload, "FAULT_PAGE": self.page.path, "FAULT_NUMBER": str(number)}

    def make(self, content):
        """Makes the directory anew, with these files. Nothing is left of what earlier programs said there."""
        shutil.rmtree(self.directory, ignore_errors=True)
        with contextlib.suppress(FileNotFoundError):
            os.remove(self.errors)
        os.mkdir(self.directory)
        files.write_files(self.directory, content)

    def files(self):
        return files.read_files(self.directory)


def fault_in(error):
    """What is told of a run that has raised."""
    return f"{type(error).__name__}: {error}"


class Kind(enum.Enum):
    """What comes of a run."""
    REFUSED = "refused"
    SERVED = "served all the same"
    BROKEN = "broken off"
    FAILED = "device failures"


class Told:
    """What came of the runs of a case: of one for each request that was refused, and of those in which none was."""

    def __init__(self):
        self.runs, self.faults = 0, []
        # The numbers of the requests that were refused, by what came of it.
        self.numbers = {kind: [] for kind in Kind}

    def text(self, case):
        kinds = [f"{kind.value} {len(numbers)}" for kind, numbers in self.numbers.items() if numbers]
        return f"{case}: " + ", ".join([f"requests {sum(map(len, self.numbers.values()))}", *kinds])


def play_once(room, play, number):
    """One run: what kind it was, what is wrong, and whether the request was refused."""
    try:
        kind, fault = play(number)
    except ERRORS as error:
        return Kind.FAILED, fault_in(error), room.page.counts().refused > 0
    is_refused = room.page.counts().refused > 0
    if not is_refused and kind != Kind.SERVED:
        fault = fault or kind.value
    return kind, fault, is_refused


def refuse_in_turn(room, told, play):
    """Plays a case with each request refused in turn, until twice none has the number, or something is wrong.

    `play` returns what kind of a run it was, and what is wrong.
    """
    number, unrefused = 1, 0
    while number < MOST_REQUESTS and unrefused < LAST_RUNS:
        kind, fault, is_refused = play_once(room, play, number)
        told.runs += 1
        if fault:
            told.faults.append(f"request {number} refused: {fault}" if is_refused else f"nothing refused: {fault}")
            return
        if is_refused:
            told.numbers[kind].append(number)
            number, unrefused = number + 1, 0
        else:
            unrefused += 1
    if unrefused < LAST_RUNS:
        told.faults.append("each turn had a refusal")
