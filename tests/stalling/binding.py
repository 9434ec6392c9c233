"""What `serve` and `call` meet before they go on: a listener that takes nobody up, a lock, a server that says nothing."""
import contextlib
import fcntl
import os
import socket
import subprocess
import threading

from harness.served import MapTest
from harness.servers import HOST, dchm, dchm_at_socket, free_port, kill

# A line has to end within so many seconds that meets what it can't wait for.
END_SECONDS = 10
# How many times a server is killed and started at once, and for how long a lock is held that a start waits for.
STARTS, LOCKED_SECONDS = 20, 0.4
IN_USE = "in use by another process"


class Binding(MapTest):
    def run_for(self, *words, seconds=END_SECONDS):
        """A run of the program that ends in time: its status, standard output and standard error."""
        try:
            ended = subprocess.run([self.program, *words], stdin=subprocess.DEVNULL, capture_output=True, text=True,
                                   timeout=seconds)
        except subprocess.TimeoutExpired:
            self.fail(f"{' '.join(words[:1])} doesn't end in {seconds} s")
        return ended.returncode, ended.stdout, ended.stderr

    @contextlib.contextmanager
    def full_listener(self):
        """The path of a Unix socket whose listener takes nobody up, and holds as many as it may."""
        path = self.directory + ".full"
        with socket.socket(socket.AF_UNIX) as listener, contextlib.ExitStack() as stack:
            listener.bind(path)
            listener.listen(0)
            with contextlib.suppress(BlockingIOError):
                while True:
                    client = stack.enter_context(socket.socket(socket.AF_UNIX))
                    client.setblocking(False)
                    client.connect(path)
            yield path

    def test_a_path_whose_listener_takes_nobody_up(self):
        """Somebody listens there, so the line ends; the lock is free again, and the other's file stays."""
        with self.full_listener() as path:
            status, printed, said = self.run_for("serve", self.directory, "--socket", path)
            self.assertEqual((1, ""), (status, printed))
            self.assertTrue(said.endswith("unreadable\n"), said)
            self.assertTrue(os.path.exists(path), "the other's file is gone")
        self.assertEqual(0, self.run_for("check", self.directory)[0], "the lock is held")

    def test_a_call_of_a_listener_that_takes_nobody_up(self):
        with self.full_listener() as path:
            self.assertEqual((1, "", "no reply\n"), self.run_for("call", "--timeout-ms", "300", "--socket", path, "get", "a"))

    def test_a_call_of_a_server_that_says_nothing(self):
        """At a port and at a Unix socket."""
        path = self.directory + ".mute"
        for family, address, option in ((socket.AF_INET, (HOST, 0), "--port"), (socket.AF_UNIX, path, "--socket")):
            with socket.socket(family) as listener:
                listener.bind(address)
                listener.listen(8)
                place = str(listener.getsockname()[1]) if option == "--port" else path
                self.assertEqual((1, "", "no reply\n"), self.run_for("call", "--timeout-ms", "300", option, place, "get", "a"))

    def test_a_call_waits_no_longer_than_ten_seconds(self):
        with socket.socket() as listener:
            listener.bind((HOST, 0))
            listener.listen(8)
            port = str(listener.getsockname()[1])
            self.assertEqual((1, "", "no reply\n"), self.run_for("call", "--port", port, "get", "a", seconds=30))

    def test_a_call_that_is_answered_in_time(self):
        with dchm(self.program, self.directory, 1) as (_, port):
            self.assertEqual((0, "now _\n", ""), self.run_for("call", "--timeout-ms", "10000", "--port", str(port), "get", "a"))

    def test_words_that_are_no_time(self):
        for word in ("", "0", "-1", "a", "1.5", "99999999999"):
            status, printed, said = self.run_for("call", "--timeout-ms", word, "--port", str(free_port()), "get", "a")
            self.assertEqual((2, ""), (status, printed), word)
            self.assertTrue(said, word)

    def test_a_directory_that_another_has(self):
        with dchm(self.program, self.directory, 1):
            status, printed, said = self.run_for("serve", self.directory, "--port", str(free_port()))
            self.assertEqual((1, ""), (status, printed))
            self.assertIn(IN_USE, said)

    def test_a_lock_that_is_given_back(self):
        """A start waits for it a little."""
        lock = self.stack.enter_context(open(os.path.join(self.directory, "lock"), "a", encoding="ascii"))
        fcntl.flock(lock, fcntl.LOCK_EX | fcntl.LOCK_NB)
        giving = threading.Timer(LOCKED_SECONDS, fcntl.flock, (lock, fcntl.LOCK_UN))
        giving.start()
        try:
            with dchm(self.program, self.directory, 1):
                pass
        finally:
            giving.join()

    def test_starts_right_behind_kills(self):
        path = self.directory + ".socket"
        for _ in range(STARTS):
            with dchm_at_socket(self.program, self.directory, 1, path) as (child, _):
                killing = threading.Thread(target=kill, args=(child,))
                child.kill()
                with dchm_at_socket(self.program, self.directory, 1, path):
                    killing.start()
                    killing.join()
