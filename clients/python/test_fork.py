#!/usr/bin/env python3
"""Tests of the client for Python in processes that fork, against tests/stand_in.py.

    PYTHONPATH=tests clients/python/test_fork.py [PROGRAM]

tests/clients runs them. The last line is `N passed, M failed`.
"""
import contextlib
import os
import sys
import threading
import unittest

import dchm
from support import MOST_TURNS, PATIENT, get_frame, stand_in
from harness import suite
from harness.suite import wait_until

KEYS, READS, CHILDREN = 50, 1000, 3


def wrong_reads(server, own):
    """How many of many Gets have the value of another key, or none; each key k has the value k, and own is this process's."""
    return sum(server.get(f"k{(own + at) % KEYS}") != (own + at) % KEYS for at in range(READS))


def forked(work):
    """A child that does the work and ends with the status that it returns: its process."""
    child = os.fork()
    if child:
        return child
    status = 99
    with contextlib.suppress(BaseException):
        status = work()
    os._exit(status)


def status_of(child):
    """The status of a child that ends by itself, or 98 if it never does."""
    ended = []

    def has_ended():
        found, status = os.waitpid(child, os.WNOHANG)
        if found:
            ended.append(os.waitstatus_to_exitcode(status))
        return bool(found)
    if not wait_until(has_ended, MOST_TURNS):
        os.kill(child, 9)
        os.waitpid(child, 0)
    return ended[0] if ended else 98


class Forks(unittest.TestCase):
    """A child has connections of its own, and leaves those of its parent alone."""

    def test_no_process_reads_the_replies_of_another(self):
        with stand_in() as there, dchm.connect(there.address, **PATIENT) as server:
            for key in range(KEYS):
                server.put(f"k{key}", key)
            children = [forked(lambda own=own: min(wrong_reads(server, own), 97)) for own in range(CHILDREN)]
            wrong = wrong_reads(server, CHILDREN)
            self.assertEqual([status_of(child) for child in children], [0] * CHILDREN)
            self.assertEqual(wrong, 0)

    def test_sums_of_all_processes_count_once(self):
        def work():
            for _ in range(READS):
                server.merge("sum", dchm.SUM, 1)
            return 0
        with stand_in() as there, dchm.connect(there.address, **PATIENT) as server:
            children = [forked(work) for _ in range(CHILDREN)]
            work()
            self.assertEqual([status_of(child) for child in children], [0] * CHILDREN)
            self.assertEqual(server.get("sum"), (CHILDREN + 1) * READS)

    def test_a_child_ends_no_connection_of_its_parent(self):
        def work():
            server.close()
            return 0
        with stand_in() as there, dchm.connect(there.address, **PATIENT) as server:
            server.put("a", 1)
            connections = there.connections()
            self.assertEqual(status_of(forked(work)), 0)
            self.assertEqual(server.get("a"), 1)
            self.assertEqual(there.connections(), connections)

    def test_a_fork_during_a_call_of_another_thread_leaves_the_child_free(self):
        def work():
            return 0 if server.get("b") == 2 else 1
        with stand_in("get a held") as there, dchm.connect(there.address, **PATIENT) as server, \
                dchm.connect(there.address, **PATIENT) as other:
            server.put("b", 2)
            waiting = threading.Thread(target=server.get, args=("a",))
            waiting.start()
            self.assertTrue(wait_until(lambda: there.received(get_frame("a")), MOST_TURNS))
            child = forked(work)
            status = status_of(child)
            other.get("release")
            waiting.join()
            self.assertEqual(status, 0)


if __name__ == "__main__":
    sys.exit(suite.run_tests())
