"""What the system refuses the program."""
import os
import resource
import socket
import subprocess

from harness.counters import FAILED
from harness.servers import HOST, Dchm, kill
from serving.runs import PROGRAM, Process, call_lines, run


class Faults(Process):
    """What the system refuses a server."""

    def put(self, port, number):
        """The reply to one put of a connection of its own; nothing if the server ended it."""
        with socket.create_connection((HOST, port)) as client:
            client.sendall(Dchm.request("put", b"key", number))
            return client.recv(4096)

    def test_a_failed_server_rests(self):
        """Once a write has failed each call is refused, and both loops have ended, so that nothing is left to run."""
        with self.served(limits=[(resource.RLIMIT_FSIZE, 4096)]) as (child, port):
            # Once a reply has come all threads run.
            self.assertEqual(b"\x00", self.put(port, 0)[2:3])
            tasks = f"/proc/{child.pid}/task"
            threads = len(os.listdir(tasks))
            replies = [self.put(port, number) for number in range(200)]
            self.assertEqual(FAILED, replies[-1])
            self.wait_until(lambda: len(os.listdir(tasks)) <= threads - 2, "both loops have ended")
            self.assertEqual(FAILED, self.put(port, 1))
            self.assertEqual((1, "refused 9 Failed\n", ""), call_lines(port, "get key\n"))
            told = [record for record in self.records().splitlines() if "the store has failed" in record]
            self.assertEqual(1, len(told), told)
            self.assertIn("ERROR", told[0])
            self.assertIn("log-a: ", told[0])
            self.assertIn("File too large", told[0])

    def test_absent_files_are_made(self):
        """The files of the second generation are empty at first, and a copy may have left them out."""
        for name in ("ckpt-b", "log-b"):
            os.remove(os.path.join(self.directory, name))
        with self.served("--checkpoint-bytes", "60") as (child, port):
            for number in range(40):
                self.assertEqual(b"\x00", self.put(port, number)[2:3])
            log = os.path.join(self.directory, "log-b")
            self.wait_until(lambda: os.path.getsize(log) > 0, "a log follows the first")
            self.assertEqual(b"\x00", self.put(port, 40)[2:3])
            kill(child)
        status, printed, _ = run("check", self.directory)
        self.assertEqual((0, "prefix 41"), (status, printed.splitlines()[2]))

    def test_connections_wait_for_descriptors(self):
        """Without descriptors the server says so once, and accepts again when there are some."""
        said = "no connection can be accepted"
        with self.served(limits=[(resource.RLIMIT_NOFILE, 17)]) as (_, port):
            clients = [socket.create_connection((HOST, port)) for _ in range(20)]
            self.wait_until(lambda: said in self.records(), "a record says so")
            for client in clients:
                client.close()
            self.assertEqual(b"\x00", self.put(port, 1)[2:3])


class Causes(Process):
    """What the system refuses `init`, `check`, `call` and `sim`: one record with the cause, and then a line of its own."""

    def refused(self, words, *causes, word="unreadable", **streams):
        streams = {"stdin": subprocess.DEVNULL, "stdout": subprocess.PIPE, **streams}
        ended = subprocess.run([PROGRAM, *words], stderr=subprocess.PIPE, timeout=60, text=True, **streams)
        self.assertEqual((1, ""), (ended.returncode, ended.stdout or ""), words)
        record, last = ended.stderr.splitlines()
        self.assertRegex(record, r"^\[ERROR (cmd_\w+|call_text|map_server)::")
        for cause in causes:
            self.assertIn(cause, record)
        self.assertEqual(word, last)

    def test_a_directory_that_cannot_be_opened(self):
        absent, file = self.directory + "2", os.path.join(self.directory, "log-a")
        for line in ("init", "check"):
            self.refused((line, absent), f"the directory {absent} can't be opened: No such file or directory")
            self.refused((line, file), f"the directory {file} can't be opened: Not a directory")
        self.refused(("sim", absent), f"the file {absent} can't be read: No such file or directory")

    def test_a_device_call_that_fails(self):
        """Its file is named; `refused 9 Failed` is the word then."""
        other = self.directory + "2"
        os.mkdir(other)
        self.refused(("init", other), "ckpt-a: File too large", word="refused 9 Failed", restore_signals=False,
                     preexec_fn=lambda: resource.setrlimit(resource.RLIMIT_FSIZE, (0, 0)))

    def test_a_stream_that_fails(self):
        other, cause = self.directory + "2", "standard output failed: No space left on device"
        os.mkdir(other)
        with open("/dev/full", "wb") as full:
            self.refused(("init", other), cause, stdout=full)
            self.refused(("check", self.directory), cause, stdout=full)
            with self.served() as (_, port):
                call = ("call", "--port", str(port))
                self.refused((*call, "get", "a"), cause, stdout=full)
                with subprocess.Popen(["echo", "get a"], stdout=subprocess.PIPE) as lines:
                    self.refused((*call, "-"), cause, stdin=lines.stdout, stdout=full)
                directory = os.open(self.directory, os.O_RDONLY)
                try:
                    self.refused((*call, "-"), "standard input failed: Is a directory", stdin=directory)
                finally:
                    os.close(directory)
