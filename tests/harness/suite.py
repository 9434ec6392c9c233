"""What runs and counts tests: the words of a command, its cases or its unittest classes, and its last line."""
import argparse
import collections
import concurrent.futures
import os
import re
import subprocess
import sys
import time
import unittest

from harness import places
from harness.servers import end_by_signal

# How often a test looks for what is to come, and for how many seconds it sleeps between two looks.
MOST_TURNS, TURN_SECONDS = 600, 0.05


def wait_until(holds, turns=MOST_TURNS):
    """Whether it holds within a bounded number of looks."""
    for _ in range(turns):
        if holds():
            return True
        time.sleep(TURN_SECONDS)
    return False


def is_ci():
    """Whether what can't be tried has failed, and isn't skipped."""
    return os.environ.get("CI") == "true"


def is_program(path):
    return os.access(path, os.X_OK)


def checked(program):
    """The path of a program, which is there; else this is told as a failure, and the command ends."""
    program = os.path.abspath(program)
    if not is_program(program):
        print(f"FAILED no program {program}\n0 passed, 1 failed")
        sys.exit(1)
    return program


def named_program(built=places.PROGRAM):
    """The program that the command's first word names, or the built one."""
    return checked(sys.argv[1] if len(sys.argv) > 1 else built)


def parser(description, built=places.PROGRAM):
    """The words of a command that has options: the program, and what is added."""
    words = argparse.ArgumentParser(description=description.split("\n")[0])
    words.add_argument("program", nargs="?", default=built, type=checked)
    return words


COUNTS = re.compile(r"(\d+) passed, (\d+) failed(?:, (\d+) skipped)?")


class Counts:
    """How many cases passed, failed and were skipped."""

    def __init__(self, passed=0, failed=0, skipped=0):
        self.passed, self.failed, self.skipped = passed, failed, skipped

    def add(self, name, fault=None, said=None):
        """Counts a case, which passed if there is no fault. A fault is told; so is what is said of one that passed."""
        if fault:
            self.failed += 1
            print(f"FAILED {name}: {fault}", flush=True)
            return
        self.passed += 1
        if said:
            print(f"{name}: {said}", flush=True)

    def take(self, found, fault):
        """Adds the counts that a last line tells; a process that told none has failed."""
        if fault:
            self.add(*fault.split(": ", 1))
            return
        passed, failed, skipped = (int(number or 0) for number in found.groups())
        self.passed, self.failed, self.skipped = self.passed + passed, self.failed + failed, self.skipped + skipped

    def leave_out(self, count, why):
        """So many cases can't be tried: they are skipped, or have failed."""
        print(f"{'FAILED ' if is_ci() else ''}{why}: {count} cases are not tried")
        if is_ci():
            self.failed += count
        else:
            self.skipped += count

    def __str__(self):
        return f"{self.passed} passed, {self.failed} failed" + (f", {self.skipped} skipped" if self.skipped else "")

    def end(self):
        """Prints the last line; returns the exit status."""
        print(self)
        return 1 if self.failed else 0


def cases_in(tests):
    for test in tests:
        yield from cases_in(test) if isinstance(test, unittest.TestSuite) else (test,)


def named_tests(only="", part=None):
    """The tests of the command's unittest classes whose names have a word, all of them or those of one class."""
    tests = unittest.defaultTestLoader.loadTestsFromModule(sys.modules["__main__"])
    return [test for test in cases_in(tests) if only in test.id() and part in (None, type(test).__name__)]


def run_tests(only="", part=None):
    """Runs these tests; returns the exit status."""
    end_by_signal()
    result = unittest.TextTestRunner(sys.stdout, verbosity=2).run(unittest.TestSuite(named_tests(only, part)))
    failed, skipped = len(result.failures) + len(result.errors), len(result.skipped)
    return Counts(result.testsRun - failed - skipped, failed, skipped).end()


def run_parts(only, jobs):
    """Runs these tests, so many classes beside each other, each in a process of its own; returns the exit status."""
    end_by_signal()
    tests = collections.Counter(type(test).__name__ for test in named_tests(only))
    # Those with the most tests first.
    parts, counts = [part for part, _ in tests.most_common()], Counts()

    def run(part):
        return subprocess.run([sys.executable, *sys.argv, "--part", part], stdin=subprocess.DEVNULL, stdout=subprocess.PIPE,
                              stderr=subprocess.STDOUT, text=True, errors="replace")

    with concurrent.futures.ThreadPoolExecutor(jobs) as pool:
        for part, ended in zip(parts, pool.map(run, parts)):
            *lines, last = ended.stdout.splitlines() or [""]
            print(f"== {part}", *lines, sep="\n", flush=True)
            found = COUNTS.fullmatch(last)
            counts.take(found, f"{part}: status {ended.returncode}, {last}" if not found else None)
    return counts.end()
