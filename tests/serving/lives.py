"""Servers that are killed, those that wait for their end, and what they leave in the log."""
import contextlib
import fcntl
import os
import resource
import select
import signal
import threading
import time

from harness.counters import COUNTERS, Client, faults_of, values_of
from harness.files import FILES, read_file
from harness.frames import frame
from harness.places import read
from harness.plain import Method, key_bytes, value_bytes
from harness.servers import Connection, Dchm, dchm_at_socket, first_line, free_port, kill, process
from serving.runs import (CONNECTIONS, PREFIX_RECORD, PROGRAM, REQUESTS, SMALL_LOG, Process, call_lines, key_of, prefix_of,
                          run)

TOTAL = CONNECTIONS * REQUESTS
# How many puts of a text, one by one, make a log so long that zeros are written ahead of its batches.
TEXTS = 100
TEXT_BYTES = 1000
TEXT = b"x" * TEXT_BYTES
LONG_LOG_BYTES = 65_536
# More than one of those batches takes, and no less than one of a small number does.
ZEROS = 4096
LATER_BYTES = 100


def make_log_long(port):
    """Puts the texts one by one, so that each is a batch of its own."""
    with contextlib.closing(Connection(Dchm, port)) as connection:
        for number in range(TEXTS):
            put = frame(bytes([Method.put]) + key_bytes(key_of(number)) + value_bytes(TEXT.decode()))
            reply = connection.exchange(put)
            if reply != b"\x00\x02\x00\x00":
                raise ValueError(f"the put of {key_of(number)} is replied by {reply.hex()}")


class Killed(Process):
    """A server that is ended by SIGKILL in the middle of its work loses no change that it replied to.

    The system goes on after SIGKILL, so this shows what the server gave to the system, not what is on the disk.
    """

    def work(self, child, port, kill_after):
        """Runs the clients to their end; kills the server once `kill_after` replies were read, if they aren't all."""
        killed = threading.Event()
        clients = [Client(index, port, REQUESTS, killed) for index in range(CONNECTIONS)]
        for client in clients:
            client.start()
        while sum(client.done for client in clients) < kill_after and any(client.is_alive() for client in clients):
            time.sleep(0.0005)
        if kill_after < TOTAL:
            killed.set()
            child.kill()
        for client in clients:
            client.join()
        self.assertEqual([], [client.failure for client in clients if client.failure])
        self.assertEqual([], [client.index for client in clients if client.has_failed], "connections with a refused call")
        return clients

    def kill_after(self, replies, *words):
        with self.served(*words) as (child, port):
            clients = self.work(child, port, replies)
            if replies == TOTAL:
                self.assertEqual(TOTAL, sum(values_of(port).values()))
            kill(child)
        with self.served(*words) as (_, port):
            values = values_of(port)
        for key in COUNTERS:
            self.assertEqual([], faults_of(key, 0, values[key], clients))
        if replies == TOTAL:
            self.assertEqual(TOTAL, sum(values.values()))

    def test_soon(self):
        self.kill_after(20)

    def test_in_the_middle(self):
        self.kill_after(TOTAL // 2)

    def test_behind_the_last_reply(self):
        self.kill_after(TOTAL)

    def test_soon_with_a_small_log(self):
        self.kill_after(100, *SMALL_LOG)

    def test_late_with_a_small_log(self):
        self.kill_after(TOTAL - 30, *SMALL_LOG)

    def test_behind_the_last_reply_with_a_small_log(self):
        self.kill_after(TOTAL, *SMALL_LOG)

    def test_in_the_middle_of_a_long_log(self):
        """Zeros are written ahead of its batches; the server that opens it again writes none."""
        with self.served("--log-ahead", str(ZEROS)) as (child, port):
            make_log_long(port)
            clients = self.work(child, port, TOTAL // 2)
            kill(child)
        prefix = prefix_of(self.directory)
        with self.served("--log-ahead", "0") as (_, port):
            values = values_of(port)
        self.assertEqual(prefix, TEXTS + sum(values.values()))
        for key in COUNTERS:
            self.assertEqual([], faults_of(key, 0, values[key], clients))


class ZerosAhead(Process):
    """Zeros behind the log's last gate, and the option that says how many are written at a time."""

    def log(self):
        return read_file(self.directory, "log-a")

    def zeros(self):
        """How many bytes stand behind the last gate, each of which is a zero."""
        log = self.log()
        content = len(log.rstrip(b"\0")) + 1
        self.assertGreater(content, LONG_LOG_BYTES)
        return len(log) - content

    def test_a_server_writes_over_the_zeros_of_another(self):
        with self.served("--log-ahead", str(ZEROS)) as (child, port):
            make_log_long(port)
            self.assertIn(self.zeros(), range(LATER_BYTES, ZEROS + 1))
            kill(child)
        self.assertEqual(TEXTS, prefix_of(self.directory))
        length = len(self.log())
        with self.served("--log-ahead", "0") as (child, port):
            gets = "".join(f"get {key_of(number)}\n" for number in range(TEXTS))
            self.assertEqual((0, f"now t{TEXT.decode()}\n" * TEXTS, ""), call_lines(port, gets))
            self.assertEqual((0, "was _\n", ""), call_lines(port, "put later i1\n"))
            kill(child)
        self.assertEqual((TEXTS + 1, length), (prefix_of(self.directory), len(self.log())))

    def test_none_are_written_for_0(self):
        with self.served("--log-ahead", "0") as (_, port):
            make_log_long(port)
            self.assertEqual(0, self.zeros())

    def test_a_mebibyte_is_written_if_the_option_is_left_out(self):
        with self.served() as (_, port):
            make_log_long(port)
            self.assertIn(self.zeros(), range((1 << 20) - TEXTS * 2 * TEXT_BYTES, 1 << 20))

    def test_words_that_are_not_allowed(self):
        words = ("serve", self.directory, "--port", "7411")
        for word in ("x", "", "1.5", "4294967296"):
            self.assertEqual((2, "", "A is a number from 0 to 4294967295\n"), run(*words, "--log-ahead", word), word)
        for more in (("--log-ahead",), ("--log-ahead", "0", "--log-ahead", "0")):
            status, printed, said = run(*words, *more)
            self.assertEqual((2, ""), (status, printed), more)
            self.assertIn("--log-ahead", said)

    def test_no_memory_for_the_zeros(self):
        """The most that may be asked for are more than the process may hold."""
        limits = [(resource.RLIMIT_AS, 3 << 30)]
        line = [PROGRAM, "serve", self.directory, "--port", str(free_port()), "--log-ahead", str((1 << 32) - 1)]
        with process(line, self.directory + ".errors", limits) as child:
            self.assertEqual((b"", 1), (child.stdout.read(), child.wait()))
        self.assertRegex(self.records(), "^" + PREFIX_RECORD.format(0) + "\nrefused 7 NoMemory\n$")
        with self.served("--log-ahead", str(ZEROS), limits=limits) as (_, port):
            self.assertEqual((0, "now _\n", ""), call_lines(port, "get key\n"))


class Standby(Process):
    """Servers that wait for the locks of a directory, and serve it once they have them."""
    WAITS = "waiting for the lock of"
    work = Killed.work

    def standby(self, *words):
        """A server that stands by, once its record says that it waits: the process, its port and the file of its records."""
        port = free_port()
        errors = f"{self.directory}.{port}.errors"
        line = [PROGRAM, "serve", self.directory, "--standby", "--port", str(port), *words]
        child = self.stack.enter_context(process(line, errors))
        self.wait_until(lambda: self.WAITS in read(errors), "it says that it waits")
        return child, port, errors

    def taken_over(self, child, port, errors, prefix):
        """It listens now, and has told once that it waited, and then how many changes there are."""
        self.assertEqual(b"listening %d\n" % port, first_line(child))
        waited = rf"\[INFO  cmd_serve(?:::\w+)*\] {self.WAITS} {self.directory}"
        self.wait_until(lambda: "prefix" in read(errors), "it says how many changes there are")
        self.assertRegex(read(errors), rf"^{waited}\n{PREFIX_RECORD.format(prefix)}\n$")

    def put(self, port, number):
        with contextlib.closing(Connection(Dchm, port)) as connection:
            connection.exchange(Dchm.request("put", b"key", number))

    def get(self, port):
        with contextlib.closing(Connection(Dchm, port)) as connection:
            return connection.ask("get", Dchm.request("get", b"key"))

    def test_it_has_what_was_answered(self):
        with self.served() as (server, port):
            standby, other, errors = self.standby()
            clients = self.work(server, port, TOTAL // 2)
            server.wait()
            self.assertEqual(b"listening %d\n" % other, first_line(standby))
        values = values_of(other)
        for key in COUNTERS:
            self.assertEqual([], faults_of(key, 0, values[key], clients))
        self.assertEqual(1, read(errors).count(self.WAITS))

    def test_it_serves_once_the_server_has_ended(self):
        """Until then the server goes on, and nobody else opens the directory."""
        with self.served() as (server, port):
            standby, other, errors = self.standby()
            self.put(port, 7)
            self.assertEqual(1, run("check", self.directory)[0])
            self.assertEqual((None, 7), (standby.poll(), self.get(port)))
            kill(server)
            self.taken_over(standby, other, errors, 1)
            self.assertEqual(7, self.get(other))
            self.assertEqual(1, run("check", self.directory)[0])

    def test_two_that_stand_by(self):
        """One serves at a time."""
        with self.served() as (server, port):
            waiting = [self.standby(), self.standby()]
            self.put(port, 0)
            kill(server)
            for prefix in (1, 2):
                ready, _, _ = select.select([child.stdout for child, _, _ in waiting], [], [], 60)
                (place,) = [place for place, (child, _, _) in enumerate(waiting) if child.stdout in ready]
                server, port, errors = waiting.pop(place)
                self.taken_over(server, port, errors, prefix)
                self.assertEqual(prefix - 1, self.get(port))
                self.put(port, prefix)
                kill(server)
        self.assertEqual(3, prefix_of(self.directory))

    def test_the_same_socket(self):
        """It takes the place of the server that has ended, at its path."""
        path = os.path.join(os.path.dirname(self.directory), "socket")
        with dchm_at_socket(PROGRAM, self.directory, CONNECTIONS, path) as (server, _):
            standby, _, _ = self.standby("--socket", path)
            self.put(path, 7)
            kill(server)
            self.assertEqual(b"listening", first_line(standby).split()[0])
            self.assertEqual(7, self.get(path))

    def test_it_waits_for_each_file(self):
        for name in (*FILES, "lock"):
            with open(os.path.join(self.directory, name), "rb") as file:
                fcntl.flock(file, fcntl.LOCK_EX)
                standby, port, errors = self.standby()
            self.taken_over(standby, port, errors, 0)
            kill(standby)

    def test_it_rests(self):
        """It takes a hundredth of a processor at most."""
        with self.served():
            standby, _, _ = self.standby()
            before = self.ticks(standby)
            time.sleep(2)
            self.assertLessEqual(self.ticks(standby) - before, 2 * os.sysconf("SC_CLK_TCK") // 100)

    @staticmethod
    def ticks(child):
        """The processor time that the process has taken."""
        return sum(map(int, read(f"/proc/{child.pid}/stat").rpartition(")")[2].split()[11:13]))

    def test_a_signal_ends_it(self):
        with self.served() as (_, port):
            standby, _, errors = self.standby()
            standby.terminate()
            self.assertEqual(-signal.SIGTERM, standby.wait(60))
            self.put(port, 1)
            self.assertEqual(1, self.get(port))

    def test_without_a_server_it_serves_at_once(self):
        with self.served("--standby") as (_, port):
            self.put(port, 1)
            self.assertRegex(self.records(), "^" + PREFIX_RECORD.format(0) + "\n$")

    def test_what_it_does_not_wait_for(self):
        """Words that aren't allowed, and a directory that isn't there."""
        with self.served():
            self.assertEqual((2, "", "P is a number from 1 to 65535\n"),
                             run("serve", self.directory, "--standby", "--port", "0"))
            for words in (("--standby", "--standby"), ("--standby=true",)):
                status, printed, said = run("serve", self.directory, "--port", "7411", *words)
                self.assertEqual((2, ""), (status, printed), words)
                self.assertIn("--standby", said)
        status, printed, said = run("serve", self.directory + "3", "--standby", "--port", "7411")
        self.assertEqual((1, ""), (status, printed))
        self.assertRegex(said, "^\\[ERROR .*No such file or directory.*\nunreadable\n$")
