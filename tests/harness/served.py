"""The base of the tests that want a map of their own, and of those whose clients are served in it."""
import contextlib
import os
import socket
import struct
import unittest

from harness import frames, plain
from harness.frames import frame
from harness.plain import Method, key_bytes, value_bytes
from harness.places import read
from harness.servers import Dchm, connect_to, dchm, init, temporary_directory
from harness.suite import named_program, wait_until

PUT = Dchm.request("put", b"a", 5)
COUNT = frame(bytes([Method.count]))
# A put of a text of 4,096 bytes, the longest, and the get that is replied with it.
LONG = frame(bytes([Method.put]) + key_bytes("key") + value_bytes("t" * 4096))
GET_LONG = Dchm.request("get", b"key")
# The replies to a put of a key that was absent, and to a frame whose length is refused.
WAS_ABSENT = frames.reply_bytes(plain.WAS, None)
BAD_FRAME = frames.refusal_bytes(plain.BAD_FRAME)
REPLY_SECONDS = 60


class MapTest(unittest.TestCase):
    """A test with a directory of its own, in which a new map lies."""
    # The program, if the command has read its words; else its first word names it.
    program = None

    def setUp(self):
        self.stack = contextlib.ExitStack()
        self.addCleanup(self.stack.close)
        self.program = self.program or named_program()
        self.directory = os.path.join(self.stack.enter_context(temporary_directory()), "map")
        init(self.program, self.directory)

    def records(self):
        """What the last server has written on its error output so far."""
        return read(self.directory + ".errors")

    def wait_until(self, holds, what):
        """It holds within a bounded number of looks; else the test fails, and says what didn't come."""
        self.assertTrue(wait_until(holds), f"it never came that {what}")


class Served(MapTest):
    """A test of a server and its connections, which are closed at the test's end."""

    def served(self, workers, *words, limits=()):
        """A server, and its port."""
        return dchm(self.program, self.directory, workers, words, limits)

    def connect(self, place):
        """A connection that fails if nothing comes for long, to a port or to the path of a Unix socket."""
        client = self.stack.enter_context(connect_to(place))
        client.setsockopt(socket.SOL_SOCKET, socket.SO_RCVTIMEO, struct.pack("ll", REPLY_SECONDS, 0))
        return client

    def reply(self, client):
        """The next whole reply; nothing at the end of the connection."""
        found = b""
        while not Dchm.is_whole(found):
            more = client.recv(2 - len(found) if len(found) < 2 else 2 + int.from_bytes(found[:2], "big") - len(found))
            if not more:
                return b""
            found += more
        return found

    def ask(self, client, request=PUT):
        client.sendall(request)
        return self.reply(client)

    def is_served(self, place):
        """Whether a put of a new connection is answered, whatever others do."""
        client = self.connect(place)
        answered = self.ask(client)[2:3] == b"\x00"
        client.close()
        return answered

    def check_served(self, *places):
        for place in places:
            self.assertTrue(self.is_served(place), f"a new connection to {place} isn't answered")

    def wait_for_end(self, client):
        """The server ends the connection, and with it whatever it had sent."""
        with contextlib.suppress(ConnectionError):
            while client.recv(65536):
                pass


def reset(client):
    """Ends a connection by a reset: what the server hasn't read of it is lost."""
    client.setsockopt(socket.SOL_SOCKET, socket.SO_LINGER, struct.pack("ii", 1, 0))
    client.close()
