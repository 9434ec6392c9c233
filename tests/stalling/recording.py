"""A standard error that nobody reads: records are lost, and nothing else. Afterwards a record tells how many were."""
import contextlib
import fcntl
import os
import re
import select
import socket
import subprocess
import time

from harness.served import MapTest
from harness.servers import first_line, free_port
from harness.suite import MOST_TURNS, TURN_SECONDS, wait_until
from stalling.rooms import ask, connected, get, now, put, was

LOST = re.compile(rb"\b[1-9][0-9]* records? (was|were|are|is)? ?lost")
# Records come of each second, of each checkpoint, and of connections above the limit.
OPTIONS = ("--workers", "2", "--connections", "4", "--checkpoint-bytes", "2000", "--report-seconds", "1")
SIZE = 4096
# So many records wait, and those that come then are lost.
ROOM = 1024


class FullPipe:
    """A pipe of little room, for standard error, which may be filled and emptied."""

    def __init__(self):
        self.read_end, self.write_end = os.pipe()
        fcntl.fcntl(self.write_end, fcntl.F_SETPIPE_SZ, SIZE)
        os.set_blocking(self.read_end, False)

    def fill(self):
        """Nothing can be written from now on. The end that the server has stays a blocking one."""
        with open(f"/proc/self/fd/{self.write_end}", "wb", buffering=0, opener=self.unblocking) as own:
            while own.write(b"x" * SIZE) or own.write(b"x"):
                pass

    @staticmethod
    def unblocking(path, flags):
        return os.open(path, flags | os.O_NONBLOCK)

    def empty(self):
        """What stands in it."""
        content = b""
        with contextlib.suppress(BlockingIOError):
            while more := os.read(self.read_end, 1 << 16):
                content += more
        return content

    def close(self):
        for end in (self.read_end, self.write_end):
            os.close(end)


class Recording(MapTest):
    def setUp(self):
        super().setUp()
        self.turns = 0
        self.pipe = FullPipe()
        self.stack.callback(self.pipe.close)

    @contextlib.contextmanager
    def recorded(self):
        """A server whose records go into the pipe, once it listens; and its port."""
        port = free_port()
        words = [self.program, "serve", self.directory, "--port", str(port), *OPTIONS]
        with subprocess.Popen(words, stdin=subprocess.DEVNULL, stdout=subprocess.PIPE, stderr=self.pipe.write_end) as child:
            try:
                ready, _, _ = select.select([child.stdout], [], [], 10)
                self.assertTrue(ready, "it doesn't listen")
                self.assertEqual(b"listening %d\n" % port, first_line(child))
                yield port
            finally:
                child.kill()

    def goes_on(self, port):
        """Connections are taken up and turned away, changes are made, and checkpoints sealed."""
        generation = self.generation()
        with contextlib.ExitStack() as stack:
            clients = [self.client(port, stack) for _ in range(4)]
            for _ in range(3):
                self.is_turned_away(port)

            def is_sealed():
                for _ in range(50):
                    self.turns += 1
                    self.assertEqual(None, ask(clients[0], put(b"k%d" % self.turns, "v" * 100), was(None)), "a put")
                return self.generation() > generation
            self.assertTrue(wait_until(is_sealed), "no checkpoint is sealed")
        with contextlib.ExitStack() as stack:
            self.client(port, stack)

    def client(self, port, stack):
        """A client that is served, once those that have left are gone."""
        wrong = None
        for _ in range(MOST_TURNS):
            client = stack.enter_context(connected(port))
            with contextlib.suppress(ConnectionError):
                wrong = ask(client, get(b"none"), now(None))
                if not wrong:
                    return client
            time.sleep(TURN_SECONDS)
        self.fail(f"no place is free: {wrong}")

    def is_turned_away(self, port):
        with connected(port) as further, contextlib.suppress(ConnectionError):
            try:
                self.assertEqual(b"", further.recv(1), "a further client is served")
            except BlockingIOError:
                self.fail("a further client isn't turned away")

    def loses(self, port):
        """More records come than wait: one each time that a client is turned away for whom there was room before."""
        with contextlib.ExitStack() as stack:
            for _ in range(3):
                self.client(port, stack)
            for _ in range(ROOM + 100):
                with contextlib.ExitStack() as stack_of_fourth:
                    fourth = self.client(port, stack_of_fourth)
                    self.is_turned_away(port)
                    fourth.shutdown(socket.SHUT_WR)
                    self.assertEqual(b"", fourth.recv(1), "a client that leaves")

    def generation(self):
        """The greatest generation that is sealed."""
        found = 0
        for name in ("ckpt-a", "ckpt-b"):
            with open(os.path.join(self.directory, name), "rb") as file:
                head = file.read(10)
            if head[:1] == b"\xa5":
                found = max(found, int.from_bytes(head[2:10], "big"))
        return found

    def tells_of_lost_ones(self):
        content = b""

        def is_told():
            nonlocal content
            content += self.pipe.empty()
            return LOST.search(content)
        self.assertTrue(wait_until(is_told), f"no record tells of lost ones: {content.replace(b'x', b'')[-500:]!r}")

    def test_a_pipe_that_is_full_from_the_start(self):
        self.pipe.fill()
        with self.recorded() as port:
            for _ in range(3):
                self.goes_on(port)
            self.loses(port)
            self.tells_of_lost_ones()
            self.goes_on(port)

    def test_a_pipe_that_is_full_later(self):
        with self.recorded() as port:
            self.goes_on(port)
            self.pipe.fill()
            for _ in range(3):
                self.goes_on(port)
            self.loses(port)
            self.tells_of_lost_ones()
            self.goes_on(port)

    def test_a_pipe_whose_reader_has_left(self):
        """Each record fails; nothing else does."""
        with self.recorded() as port:
            self.goes_on(port)
            os.close(self.pipe.read_end)
            self.pipe.read_end = os.open(os.devnull, os.O_RDONLY)
            for _ in range(2):
                self.goes_on(port)
