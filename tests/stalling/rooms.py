"""The servers of these tests, at a port and at a Unix socket, and the clients that are connected to them."""
import atexit
import bisect
import contextlib
import functools
import os
import shutil
import socket
import struct
import tempfile

from harness import faulty, frames, plain
from harness.frames import frame
from harness.places import read
from harness.plain import Method, key_bytes, value_bytes
from harness.servers import HOST, dchm, dchm_at_socket, init, temporary_directory
from harness.suite import is_ci

# A reply has to come within so many seconds. That is far above what any takes.
REPLY_SECONDS = 10
# The room for what a client at a port hasn't read, and its segments: with small ones the server's own room is small too.
SMALL_ROOM, SMALL_SEGMENT = 16384, 536


@functools.cache
def faults_library():
    """The library of tests/faults.c, or nothing without a C compiler."""
    place = tempfile.mkdtemp(prefix="dchm-faults-")
    atexit.register(shutil.rmtree, place, True)
    return faulty.library(place)


def need_library(test):
    """Without a C compiler the test is skipped, or has failed if the variable CI is `true`."""
    if faults_library():
        return
    if is_ci():
        test.fail(faulty.NO_COMPILER)
    test.skipTest(faulty.NO_COMPILER)


class Room:
    """A server of its own, in a new directory, with the pace of its disk."""

    def __init__(self, room, kind):
        self.kind = kind
        self.directory = os.path.join(os.path.realpath(room), "map")
        self.page = faulty.Page(os.path.join(room, "page"))
        self.child = self.place = None

    def environment(self, fault):
        """The environment of a server with this fault, in the words of tests/faults.c."""
        own = {"LD_PRELOAD": faults_library(), "FAULT_PAGE": self.page.path, "FAULT_DIRECTORY": self.directory}
        return {**os.environ, **own, **fault}

    def records(self):
        return read(self.directory + ".errors")

    def last_write(self):
        """When the files of the directory were last written to."""
        return max(os.stat(os.path.join(self.directory, name)).st_mtime_ns for name in os.listdir(self.directory))

    def descriptors(self):
        """How many descriptors the server has."""
        return len(os.listdir(f"/proc/{self.child.pid}/fd"))


@contextlib.contextmanager
def served(program, kind, *words, workers=1, fault=None):
    """A server at a port or at a Unix socket, on a disk whose pace may be set if there is a fault, be it an empty one."""
    with temporary_directory() as path:
        room = Room(path, kind)
        init(program, room.directory)
        environment = None if fault is None else room.environment(fault)
        begun = (dchm(program, room.directory, workers, words, environment=environment) if kind == "port" else
                 dchm_at_socket(program, room.directory, workers, room.directory + ".socket", words, environment=environment))
        with begun as (room.child, room.place):
            yield room


@contextlib.contextmanager
def connected(place, is_small=False, seconds=REPLY_SECONDS):
    """A connection whose reads fail after some seconds. At a port the room for what isn't read may be small on both sides."""
    is_port = isinstance(place, int)
    with socket.socket(socket.AF_INET if is_port else socket.AF_UNIX) as client:
        if is_small and is_port:
            client.setsockopt(socket.SOL_SOCKET, socket.SO_RCVBUF, SMALL_ROOM)
            client.setsockopt(socket.IPPROTO_TCP, socket.TCP_MAXSEG, SMALL_SEGMENT)
        if is_port:
            client.setsockopt(socket.IPPROTO_TCP, socket.TCP_NODELAY, 1)
        client.setsockopt(socket.SOL_SOCKET, socket.SO_RCVTIMEO, struct.pack("ll", seconds, 0))
        client.connect((HOST, place) if is_port else place)
        yield client


def put(key, value):
    return frame(bytes([Method.put]) + key_bytes(key) + value_bytes(value))


def get(key):
    return frame(bytes([Method.get]) + key_bytes(key))


def was(value):
    return frames.reply_bytes(plain.WAS, value)


def now(value):
    return frames.reply_bytes(plain.NOW, value)


def difference(wanted, came):
    """What differs between the bytes that were to come and those that came; nothing if they are the same."""
    if wanted == came:
        return None
    at = bisect.bisect_left(range(min(len(wanted), len(came))), True, key=lambda end: wanted[:end + 1] != came[:end + 1])
    return f"{len(came)} of {len(wanted)} bytes came" + (f", and byte {at} is wrong" if at < len(came) else "")


def read_bytes(client, count):
    """So many bytes; fewer if the connection ends or nothing more comes in time."""
    content = bytearray()
    with contextlib.suppress(BlockingIOError):
        while len(content) < count and (more := client.recv(min(count - len(content), 1 << 16))):
            content += more
    return bytes(content)


def ask(client, request, reply):
    """Asks, and says what is wrong with what is replied."""
    client.sendall(request)
    return difference(reply, read_bytes(client, len(reply)))
