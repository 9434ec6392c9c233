"""Many calls of one connection beside a plain map: of a log that is opened, and at random."""
import contextlib
import itertools
import os
import random
import unittest

from harness import files, frames, plain
from harness.at_random import random_call
from harness.frames import body_of, frame
from harness.plain import Method
from harness.servers import dchm, replies_at
from serving.runs import PREFIX_RECORD, PROGRAM, Process

VERSION = 2
# Each key is put twice, in batches. So more changes are due at once than are made at a time, and some are left at the end.
KEYS, CHANGES, BATCH = 5_000, 10_000, 1_000
SEED, CALLS = 1, 10_000
PIECES = (1, 2, 3, 17, 400, 5_000, 70_000)


def key_of(number):
    return f"key{number % KEYS:05}"


def long_log():
    width = plain.FILE_KEY_WIDTHS[VERSION]
    batches = [files.batch(first, [files.record(Method.put, key_of(number), plain.value_bytes(number), width)
                                   for number in range(first, first + BATCH)]) for first in range(0, CHANGES, BATCH)]
    return files.log_header(VERSION, 0, 0) + b"".join(batches) + files.CLOSED_GATE


@contextlib.contextmanager
def one_processor():
    """What is started here has one processor, and opens a directory by one thread."""
    given = os.sched_getaffinity(0)
    os.sched_setaffinity(0, {min(given)})
    try:
        yield
    finally:
        os.sched_setaffinity(0, given)


def replies_in(content):
    """The frames of replies."""
    while content:
        length = 2 + int.from_bytes(content[:2], "big")
        yield content[:length].hex()
        content = content[length:]


def in_pieces(pick, content):
    at = 0
    while at < len(content):
        end = at + pick.choice(PIECES)
        yield content[at:end]
        at = end


class Calls(Process):
    """The replies to many requests are those of a plain map."""

    def check_replies(self, requests, came, wanted):
        for request, reply, one in itertools.zip_longest(requests, replies_in(came), replies_in(wanted)):
            self.assertEqual(one, reply, request)

    def check_long_log(self, workers):
        files.write_files(self.directory, {"log-a": long_log()})
        requests = [(Method.get, key_of(number), ()) for number in range(KEYS)]
        with dchm(PROGRAM, self.directory, workers) as (_, port):
            came = replies_at(port, [frame(body_of(request)) for request in requests])
            self.assertRegex(self.records(), "^" + PREFIX_RECORD.format(CHANGES) + "\n$")
        last = [frames.reply_bytes(plain.NOW, number) for number in range(CHANGES - KEYS, CHANGES)]
        self.check_replies(requests, came, b"".join(last))

    def test_a_long_log_that_one_thread_opens(self):
        with one_processor():
            self.check_long_log(1)

    @unittest.skipIf(len(os.sched_getaffinity(0)) == 1, "there is one processor")
    def test_a_long_log_that_a_thread_for_each_processor_opens(self):
        self.check_long_log(4)

    def test_random_calls(self):
        pick = random.Random(SEED)
        requests = [random_call(pick) for _ in range(CALLS)]
        stream = b"".join(frame(body_of(request)) for request in requests)
        with self.served() as (_, port):
            came = replies_at(port, in_pieces(pick, stream))
        self.check_replies(requests, came, frames.dialogue(stream, plain.Running))
