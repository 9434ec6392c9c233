"""Servers whose files are slow, or are removed."""
import contextlib
import functools
import os
import shutil
import threading

from harness.files import FILES
from harness.servers import Connection, Dchm, dchm, kill
from serving.called import TO_THE_END, Called
from serving.runs import CONNECTIONS, PROGRAM, Process

KEY, OTHER = b"key", b"other"
FAILED = b"\x00\x02\x89\x00"
PUT = Dchm.request("put", OTHER, 1)


def exchange(port, request):
    """The reply to one request of a connection of its own."""
    with contextlib.closing(Connection(Dchm, port)) as connection:
        return connection.exchange(request)


class Slow(Called):
    """A device call that doesn't come back."""

    def test_a_sync_that_takes_long(self):
        """It is told of once, and once more when it has come back. Meanwhile what is durable is read, by new clients too."""
        with self.served() as (child, port):
            exchange(port, Dchm.request("put", KEY, 7))
            kill(child)
        # The first sync of the log is made as the directory is opened.
        environment = self.environment("sync", "held", "log-a", first=2, last=TO_THE_END)
        with dchm(PROGRAM, self.directory, CONNECTIONS, environment=environment) as (_, port):
            replies = []
            changing = threading.Thread(target=lambda: replies.append(exchange(port, PUT)), daemon=True)
            changing.start()
            self.wait_until(lambda: self.page.counts().faults, "a sync is held")
            self.wait_until(lambda: "log-a: no answer for 5 s" in self.records(), "it is told of")
            for _ in range(2 * CONNECTIONS):
                self.assertEqual(Dchm.now(7), exchange(port, Dchm.request("get", KEY)))
            self.assertEqual([], replies)
            self.page.free()
            changing.join(60)
            self.assertEqual([b"\x00\x02\x00\x00"], replies)
            self.wait_until(lambda: "log-a: it answered after" in self.records(), "its end is told of")
        self.assertEqual(1, self.records().count("no answer"))


class Removed(Process):
    """A directory, or one of its files, that is removed while it is served: what is written to it is lost with the process."""

    def fails_without(self, remove):
        """The server finds it by itself, and answers no change from then on."""
        with self.served() as (_, port):
            self.assertEqual(b"\x00\x02\x00\x00", exchange(port, PUT))
            remove()
            self.wait_until(lambda: "the files have no names any more" in self.records(), "it is told of")
            self.assertEqual(FAILED, exchange(port, Dchm.request("put", KEY, 2)))
            self.wait_until(lambda: "the store has failed, " in self.records(), "the store fails")
            self.assertEqual(FAILED, exchange(port, Dchm.request("get", OTHER)))
        self.assertIn(": it was removed: each call is refused from now on", self.records())

    def test_a_directory(self):
        self.fails_without(lambda: shutil.rmtree(self.directory))

    def test_a_file(self):
        for name in FILES:
            with self.subTest(name):
                self.setUp()
                self.fails_without(functools.partial(os.remove, os.path.join(self.directory, name)))

    def test_a_file_that_another_replaced(self):
        def replace():
            shutil.copyfile(os.path.join(self.directory, "log-a"), self.directory + ".copy")
            os.replace(self.directory + ".copy", os.path.join(self.directory, "log-a"))
        self.fails_without(replace)
