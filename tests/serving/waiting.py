"""How long a call waits for its server."""
import contextlib
import itertools
import os
import signal
import socket
import subprocess
import threading
import time

from harness import frames, plain
from harness.servers import HOST, dchm_at_socket, fill_backlog
from serving.runs import CONNECTIONS, PROGRAM, Process, run

NO_REPLY = (1, "", "no reply\n")
# The bound of most calls here, and one that no call of a test reaches.
SHORT, LONG = "400", "60000"
# The seconds between two bytes of a peer that is slow, and its replies at a time.
DRIP_SECONDS, REPLIES = 0.1, 12
NOW_5 = frames.reply_bytes(plain.NOW, 5)
MISUSE = "N is a number of milliseconds from 1 to 2147483648\n"


class Waiting(Process):
    """`dchm call --timeout-ms N`."""

    def setUp(self):
        super().setUp()
        self.path = self.directory + ".socket"

    @contextlib.contextmanager
    def listener(self, family, backlog=5):
        """A listener that takes no connection, and the words that name it."""
        with socket.socket(family) as listener:
            listener.bind((HOST, 0) if family == socket.AF_INET else self.path)
            listener.listen(backlog)
            if family == socket.AF_INET:
                yield listener, ("--port", str(listener.getsockname()[1]))
            else:
                yield listener, ("--socket", self.path)
                os.remove(self.path)

    def check_no_reply(self, *at):
        bound = ("--timeout-ms", SHORT)
        self.assertEqual(NO_REPLY, run("call", *at, *bound, "get", "a"), at)
        lines = run("call", *at, *bound, "-", given="get a\nsize\nput a i5\n")
        self.assertEqual((1, "no reply\nmisuse no such method\nno reply\n", ""), lines, at)

    def test_a_server_that_is_stopped(self):
        with dchm_at_socket(PROGRAM, self.directory, CONNECTIONS, self.path) as (child, _):
            child.send_signal(signal.SIGSTOP)
            try:
                self.check_no_reply("--socket", self.path)
            finally:
                child.send_signal(signal.SIGCONT)
            self.assertEqual((0, "now i5\n", ""), run("call", "--socket", self.path, "merge", "b", "SUM", "i5"))
        with self.served() as (child, port):
            child.send_signal(signal.SIGSTOP)
            try:
                self.check_no_reply("--port", str(port))
                # Ten seconds if it is left out.
                self.assertEqual(NO_REPLY, run("call", "--port", str(port), "get", "a"))
            finally:
                child.send_signal(signal.SIGCONT)

    def test_a_full_backlog(self):
        for family in (socket.AF_UNIX, socket.AF_INET):
            with self.listener(family, backlog=0) as (listener, at):
                waiting = fill_backlog(listener)
                self.check_no_reply(*at)
                for client in waiting:
                    client.close()

    def test_a_listener_that_answers_nothing(self):
        for family in (socket.AF_UNIX, socket.AF_INET):
            with self.listener(family) as (_, at):
                self.check_no_reply(*at)

    @contextlib.contextmanager
    def peer(self, family, answer):
        """The words that name a peer, which takes one connection and does this with it."""
        def serve(listener):
            client, _ = listener.accept()
            with client, contextlib.suppress(OSError):
                answer(client)

        with self.listener(family) as (listener, at):
            thread = threading.Thread(target=serve, args=[listener])
            thread.start()
            try:
                yield at
            finally:
                thread.join()

    def test_a_peer_that_never_ends_its_reply(self):
        """Each byte comes soon behind the last, but the bound is of the whole reply."""
        def drip(client):
            for byte in itertools.chain(b"\x0f\xff\x01", itertools.repeat(0)):
                client.sendall(bytes([byte]))
                time.sleep(DRIP_SECONDS)

        for family in (socket.AF_UNIX, socket.AF_INET):
            for words, printed in ((("get", "a"), NO_REPLY), (("-",), (1, "no reply\n", ""))):
                with self.peer(family, drip) as at:
                    self.assertEqual(printed, run("call", *at, "--timeout-ms", SHORT, *words, given="get a\n"))

    def test_each_reply_has_its_own_time(self):
        """Together they take longer than the bound."""
        def answer(client):
            for _ in range(REPLIES):
                time.sleep(DRIP_SECONDS)
                client.sendall(NOW_5)

        for family in (socket.AF_UNIX, socket.AF_INET):
            with self.peer(family, answer) as at:
                said = run("call", *at, "--timeout-ms", "1000", "-", given="get a\n" * REPLIES)
                self.assertEqual((0, "now i5\n" * REPLIES, ""), said)

    def test_an_input_that_comes_late(self):
        """No time runs while it is waited for."""
        with self.served() as (_, port):
            line = [PROGRAM, "call", "--port", str(port), "--timeout-ms", SHORT, "-"]
            with subprocess.Popen(line, stdin=subprocess.PIPE, stdout=subprocess.PIPE) as child:
                for number in range(1, 4):
                    time.sleep(2 * int(SHORT) / 1000)
                    child.stdin.write(b"merge a SUM i1\n")
                    child.stdin.flush()
                    self.assertEqual(b"now i%d\n" % number, child.stdout.readline())

    def test_a_server_that_answers(self):
        with self.served() as (_, port):
            for bound in ("1000", LONG, "2147483648"):
                self.assertEqual((0, "now _\n", ""), run("call", "--port", str(port), "--timeout-ms", bound, "get", "a"))
            listed = run("call", "--timeout-ms", LONG, "--port", str(port), "-", given="put a i5\nget a\n")
            self.assertEqual((0, "was _\nnow i5\n", ""), listed)

    def test_words(self):
        for wrong in ("0", "", "x", "2147483649", "1.5", "99999999999999999999"):
            for words in (("get", "a"), ("-",)):
                said = run("call", "--port", "7411", f"--timeout-ms={wrong}", *words)
                self.assertEqual((2, "", MISUSE), said, wrong)
