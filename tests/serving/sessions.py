"""Calls of a server, of single keys and of the whole map, and the directory that it has open."""
import concurrent.futures
import fcntl
import os
import subprocess
import threading

from harness.counters import COUNTERS, Client
from harness.files import FILES, OLD_FILES, OLD_FILES_ROTATED, read_file, read_files, write_files
from harness.served import COUNT
from harness.servers import Connection, Dchm, init, kill
from serving.runs import CONNECTIONS, IN_USE, PREFIX_RECORD, PROGRAM, REQUESTS, Process, call_lines, prefix_of, run

# The lines of the program that open a directory: the first word, and those behind the directory.
LINES = (("check",), ("init",), ("serve", "--port", "7411"))


class Session(Process):
    """The program as its users call it, one process a call."""

    def call(self, port, *words):
        return run("call", "--port", str(port), *words)

    def test_values_outlive_a_killed_server(self):
        with self.served() as (child, port):
            for words, printed in (
                (("put", "stock", "i5"), "was _\n"),
                (("compute", "stock", "SUM", "i-2"), "now i3\n"),
                (("removeIf", "stock", "i4"), "did no\n"),
                (("putIfAbsent", "name", "tfive"), "was _\n"),
                (("get", "stock"), "now i3\n"),
            ):
                self.assertEqual((0, printed, ""), self.call(port, *words), words)
            for words in (("remove", "stock", "i3"), ("put", "stock", "3"), ("clear",)):
                self.assertEqual((2, ""), self.call(port, *words)[:2], words)
            kill(child)
            self.assertEqual((1, "", "no reply\n"), self.call(port, "get", "stock"))
        with self.served() as (_, port):
            self.assertEqual((0, "now i3\n", ""), self.call(port, "get", "stock"))
            self.assertEqual((0, "now tfive\n", ""), self.call(port, "get", "name"))
        printed = "generation 0\nstripes 16\nprefix 4\nentries 2\n"
        self.assertEqual((0, printed, ""), run("check", self.directory))

    def version_of(self, name):
        return read_file(self.directory, name)[:1]

    def test_a_directory_of_version_01(self):
        """It is brought to version 02 before it is served, so that keys may be longer at once; its map stays."""
        write_files(self.directory, OLD_FILES)
        longest = "k" * 4000
        with self.served() as (child, port):
            self.assertIn("upgraded to version 2", self.records())
            self.assertEqual(b"\2", self.version_of("log-b"))
            self.assertEqual((0, "now i5\n", ""), self.call(port, "get", "a"))
            self.assertEqual((0, "was _\n", ""), self.call(port, "put", longest, "i7"))
            kill(child)
        with self.served() as (_, port):
            self.assertEqual(1, self.records().count("upgraded"))
            for key, printed in ((longest, "now i7\n"), ("a", "now i5\n")):
                self.assertEqual((0, printed, ""), self.call(port, "get", key), key)

    def test_the_last_frame_of_version_01(self):
        """The log of version 01 ends with the frame that names the next one, which has version 02."""
        empty = bytes.fromhex("01" + 16 * "00" + "00")
        ended = bytes.fromhex("01" + 16 * "00" + "A5" + "0200000008" + "0000000000000001" + "00")
        begun = bytes.fromhex("02" + "0000000000000001" + 8 * "00" + "00")
        for log_a, ended_log, low in ((empty, ended, 0), (OLD_FILES["log-a"], OLD_FILES_ROTATED["log-a"], 1)):
            write_files(self.directory, {**OLD_FILES, "log-a": log_a})
            with self.served() as (child, _):
                kill(child)
            self.assertEqual(ended_log, read_file(self.directory, "log-a"))
            self.assertEqual(begun[:16] + bytes([low]) + begun[17:], read_file(self.directory, "log-b"))

    def test_exact_sums(self):
        """A sum of more than 64 bits is a fault that leaves the key, and the log with these changes is opened again."""
        greatest = (1 << 63) - 1
        with self.served() as (child, port):
            for words, printed in (
                (("put", "m", f"i{greatest}"), "was _\n"),
                (("merge", "m", "SUM_EXACT", "i1"), "fault 3 Overflow\n"),
                (("get", "m"), f"now i{greatest}\n"),
                (("merge", "m", "SUM_EXACT", "i-1"), f"now i{greatest - 1}\n"),
            ):
                self.assertEqual((0, printed, ""), self.call(port, *words), words)
            kill(child)
        printed = "generation 0\nstripes 16\nprefix 3\nentries 1\n"
        self.assertEqual((0, printed, ""), run("check", self.directory))
        with self.served() as (_, port):
            self.assertEqual((0, f"now i{greatest - 1}\n", ""), self.call(port, "get", "m"))

    def test_lines_of_calls(self):
        """The replies come in order, to more calls than are sent together, and to each line once it is there."""
        count, text = 300, "x" * 4096
        with self.served() as (child, port):
            puts = "".join(f"put key{number} i{number}\n" for number in range(count))
            self.assertEqual((0, "was _\n" * count, ""), call_lines(port, puts))
            calls = "".join(f"get key{number}\nget\n" for number in range(count))
            printed = "".join(f"now i{number}\nmisuse too few words, or too many\n" for number in range(count))
            self.assertEqual((2, printed, ""), call_lines(port, calls))
            self.assertEqual((0, "was _\n" + f"was t{text}\n" * 99, ""), call_lines(port, f"put long t{text}\n" * 100))
            sums = "".join(f"now i{number}\n" for number in range(1, count + 1))
            self.assertEqual((0, sums, ""), call_lines(port, "merge sum SUM i1\n" * count))
            with subprocess.Popen([PROGRAM, "call", "--port", str(port), "-"], stdin=subprocess.PIPE,
                                  stdout=subprocess.PIPE, text=True, bufsize=1) as caller:
                for number in range(3):
                    caller.stdin.write(f"get key{number}\n")
                    self.assertEqual(f"now i{number}\n", caller.stdout.readline())
                caller.stdin.write("get key3")
                caller.stdin.close()
                self.assertEqual("now i3\n", caller.stdout.read())
            kill(child)
            self.assertEqual((1, "no reply\nmisuse no such method\n", ""), call_lines(port, "get key0\nsize\n"))

    def test_a_directory_has_one_program(self):
        with self.served():
            status, printed, said = run("check", self.directory)
            self.assertEqual((1, ""), (status, printed))
            record, word = said.splitlines()
            self.assertIn(f"the directory {self.directory} can't be opened", record)
            self.assertEqual(IN_USE, word)
            self.assertEqual([], self.cannot_serve(self.directory, 7411, "can't be opened", IN_USE))

    def test_a_file_that_another_has_locked(self):
        """Each of the five files is locked, and none is read or written while another has one of them."""
        before = read_files(self.directory)
        for name in (*FILES, "lock"):
            with open(os.path.join(self.directory, name), "rb") as file:
                fcntl.flock(file, fcntl.LOCK_EX)
                with concurrent.futures.ThreadPoolExecutor(len(LINES)) as pool:
                    ends = pool.map(lambda words: run(words[0], self.directory, *words[1:]), LINES)
                for words, (status, printed, said) in zip(LINES, ends):
                    self.assertEqual((1, ""), (status, printed), (name, words))
                    record, word = said.splitlines()
                    self.assertRegex(record, rf"^\[ERROR .*the directory {self.directory} can't be opened: {IN_USE}$")
                    self.assertEqual(IN_USE, word)
            self.assertEqual(before, read_files(self.directory), name)
        self.assertEqual(0, prefix_of(self.directory))

    def test_a_server_has_locked_its_files(self):
        """Until it ends: a system that takes the locks from it can then refuse it the files."""
        with self.served() as (child, _):
            self.assertEqual(["taken"] * 5, [self.lock_of(name) for name in (*FILES, "lock")])
            kill(child)
        self.assertEqual(["free"] * 5, [self.lock_of(name) for name in (*FILES, "lock")])

    def lock_of(self, name):
        with open(os.path.join(self.directory, name), "rb") as file:
            try:
                fcntl.flock(file, fcntl.LOCK_EX | fcntl.LOCK_NB)
            except BlockingIOError:
                return "taken"
        return "free"

    def cannot_serve(self, directory, port, cause, word="unreadable"):
        """A server that can't start says why in one record, and then the word; returns the records before."""
        status, printed, said = run("serve", directory, "--port", str(port))
        self.assertEqual((1, ""), (status, printed))
        *before, record, last = said.splitlines()
        self.assertIn("ERROR", record)
        self.assertIn(cause, record)
        self.assertEqual(word, last)
        return before

    def test_a_port_that_is_taken(self):
        """The directory has opened, so its prefix is told; the port is bound behind it."""
        with self.served() as (_, port):
            other = self.directory + "2"
            init(PROGRAM, other)
            (record,) = self.cannot_serve(other, port, f"port {port} can't be listened on")
            self.assertRegex(record, "^" + PREFIX_RECORD.format(0) + "$")

    def test_a_directory_that_is_absent(self):
        self.assertEqual([], self.cannot_serve(self.directory + "3", 7411, "No such file or directory"))

    def test_a_directory_that_is_not_formatted(self):
        other = self.directory + "4"
        os.mkdir(other)
        self.assertEqual((1, "", "refused 11 NotFormatted\n"), run("serve", other, "--port", "7411"))

    def test_a_record_tells_the_prefix(self):
        """Each start writes one Info record on standard error, before it listens."""
        records = ""
        for prefix in range(2):
            records += PREFIX_RECORD.format(prefix) + "\n"
            with self.served() as (child, port):
                self.assertRegex(self.records(), f"^{records}$")
                self.assertEqual((0, "was _\n", ""), self.call(port, "put", f"key{prefix}", "i1"))
                kill(child)


class WholeMap(Process):
    """Count, reduce and search over the whole map."""
    SUM = b"\x00\x0a\x21\x04" + (1).to_bytes(8, "big")

    def call(self, port, *words):
        return run("call", "--port", str(port), *words)

    def test_the_words_of_its_calls(self):
        """Of an empty map, of numbers, and with a text among them; a threshold changes nothing."""
        most = str((1 << 64) - 1)
        with self.served() as (_, port):
            for words, printed in (
                (("count",), "now i0\n"),
                (("reduce", "SUM", "0"), "now _\n"),
                (("search", "0", "i5"), "now _\n"),
                (("put", "b", "i5"), "was _\n"),
                (("put", "a", "i-2"), "was _\n"),
                (("put", "c", "i5"), "was _\n"),
                (("count",), "now i3\n"),
                (("reduce", "SUM", "0"), "now i8\n"),
                (("reduce", "MAX", most), "now i5\n"),
                (("reduce", "MIN", "2"), "now i-2\n"),
                (("search", "1", "i5"), "now tb\n"),
                (("search", most, "i6"), "now _\n"),
                (("put", "d", "tfive"), "was _\n"),
                (("reduce", "SUM", "1"), "fault 1 WrongKind\n"),
                (("search", "1", "tfive"), "now td\n"),
            ):
                self.assertEqual((0, printed, ""), self.call(port, *words), words)
            for words in (("count", "a"), ("reduce", "SUM"), ("reduce", "KEEP", "1"), ("reduce", "SUM_EXACT", "1"),
                          ("search", "-1", "i5"), ("search", "1", "_")):
                status, printed, said = self.call(port, *words)
                self.assertEqual((2, ""), (status, printed), words)
                self.assertNotEqual("", said)

    def test_beside_clients_that_change_it(self):
        """The sum that one connection is told never falls, and at last it is that of all merges."""
        with self.served() as (_, port):
            clients = [Client(index, port, REQUESTS, threading.Event()) for index in range(CONNECTIONS - 1)]
            for client in clients:
                client.start()
            sums, connection = [0], Connection(Dchm, port)
            while any(client.is_alive() for client in clients):
                reply = connection.exchange(self.SUM)
                sums.append(int.from_bytes(reply[4:], "big") if reply[3:4] == b"\x01" else 0)
            for client in clients:
                client.join()
            self.assertEqual([], [client.failure for client in clients if client.failure])
            self.assertEqual(sums, sorted(sums))
            self.assertEqual(Dchm.now(len(COUNTERS)), connection.exchange(COUNT))
            self.assertEqual(Dchm.now((CONNECTIONS - 1) * REQUESTS), connection.exchange(self.SUM))
            connection.close()

    def test_ten_thousand_puts(self):
        keys = [b"key %d" % number for number in range(10_000)]
        with self.served() as (_, port):
            writer = Connection(Dchm, port)
            sending = threading.Thread(target=writer.socket.sendall, daemon=True,
                                       args=(b"".join(Dchm.request("put", key, 5) for key in keys),))
            sending.start()
            counts = []
            while not counts or counts[-1] < len(keys):
                status, printed, _ = self.call(port, "count")
                self.assertEqual(0, status)
                counts.append(int(printed.removeprefix("now i")))
                # Another connection's view may be an older one, and has no more entries than there are keys.
                status, printed, _ = self.call(port, "reduce", "SUM", "1")
                self.assertEqual(0, status)
                self.assertIn(printed, ["now _\n", *(f"now i{5 * number}\n" for number in range(1, len(keys) + 1))])
                status, printed, _ = self.call(port, "search", "1", "i5")
                self.assertIn((status, printed[:7]), [(0, "now _\n"), (0, "now tke")])
            self.assertEqual(counts, sorted(counts))
            self.assertEqual((0, "now i50000\n", ""), self.call(port, "reduce", "SUM", "1"))
            self.assertEqual((0, "now tkey 0\n", ""), self.call(port, "search", "1", "i5"))
            writer.close()
