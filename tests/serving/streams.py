"""Standard streams that are closed when the program starts."""
import contextlib
import functools
import itertools
import os
import resource
import shutil

from harness.served import PUT, WAS_ABSENT
from harness.servers import Connection, Dchm, dchm, init, kill, process, run_program, takes_connections
from serving.runs import CONNECTIONS, PROGRAM, SMALL_LOG, Process, files_of, run

# How a shell names each of the three, and the eight ways of closing some of them.
STREAMS = ("<", ">", "2>")
WAYS = [way for count in range(4) for way in itertools.combinations(STREAMS, count)]
CLOSED, NULL = "&-", "/dev/null"
SCRIPT = "open 16\nstart 0 put a i5\ngo 0\n"


def line_of(way, to, words):
    """The words of a shell that becomes the program, with these streams closed, or at what is named."""
    return ["/bin/sh", "-c", " ".join(['exec "$@"', *(stream + to for stream in way)]), "sh", PROGRAM, *words]


def put_a(path):
    """A put at a server, once it is answered."""
    with contextlib.closing(Connection(Dchm, path)) as connection:
        if connection.exchange(PUT) != WAS_ABSENT:
            raise ValueError("the put is answered otherwise")


class ClosedStreams(Process):
    """Each of the eight ways is as if what is closed were /dev/null: no file of the directory gets its number."""

    def setUp(self):
        super().setUp()
        self.room = os.path.dirname(self.directory)
        with self.served() as (child, port):
            self.fill(port, 3)
            kill(child)
        later = self.directory + "_later"
        init(PROGRAM, later)
        with dchm(PROGRAM, later, CONNECTIONS, SMALL_LOG) as (child, port):
            self.fill(port, 40)
            self.wait_until(lambda: os.path.getsize(os.path.join(later, "log-b")) > 0, "a log follows the first")
            kill(child)
        self.maps = (self.directory, later)

    def fill(self, port, count):
        with contextlib.closing(Connection(Dchm, port)) as connection:
            for number in range(count):
                connection.exchange(Dchm.request("put", b"key%d" % number, number))

    @contextlib.contextmanager
    def copied(self, directory):
        """A copy of a directory, always at the same path."""
        copy = shutil.copytree(directory, os.path.join(self.room, "copy"))
        try:
            yield copy
        finally:
            shutil.rmtree(copy)

    def run_in_copy(self, way, to, directory, *words):
        """What a run leaves: its status, what it writes to the other streams, and the files."""
        with self.copied(directory) as copy:
            return run_program(*line_of(way, to, [word.format(copy) for word in words])), files_of(copy)

    def check_ways(self, directory, *words):
        for way in WAYS:
            wanted = self.run_in_copy(way, NULL, directory, *words)
            self.assertEqual(wanted, self.run_in_copy(way, CLOSED, directory, *words), (words, way))
            self.assertEqual(b"", wanted[1].get("lock", b""))

    def test_init(self):
        empty = os.path.join(self.room, "empty")
        os.mkdir(empty)
        for directory in (empty, *self.maps):
            self.check_ways(directory, "init", "{}")
        for way in WAYS:
            with self.copied(empty) as copy:
                self.assertEqual(0, run_program(*line_of(way, CLOSED, ("init", copy)))[0], way)
                self.assertEqual((0, "generation 0\nstripes 16\nprefix 0\nentries 0\n", ""), run("check", copy), way)

    def test_check(self):
        for directory in self.maps:
            self.check_ways(directory, "check", "{}")
            self.assertEqual(files_of(directory), self.run_in_copy(STREAMS, CLOSED, directory, "check", "{}")[1])

    def test_the_map_in_memory_and_a_script(self):
        for directory in self.maps:
            self.check_ways(directory, "mem")
            with open(os.path.join(directory, "script"), "w", encoding="utf-8") as script:
                script.write(SCRIPT)
            self.check_ways(directory, "sim", "{}/script")
            os.remove(os.path.join(directory, "script"))

    @contextlib.contextmanager
    def started(self, way, copy):
        """A server that has these streams closed, once it takes connections: its process, and its socket's path."""
        path = os.path.join(self.room, "socket")
        line = line_of(way, CLOSED, ("serve", copy, "--socket", path))
        with process(line, copy + ".errors") as child:
            self.wait_until(lambda: child.poll() is not None or takes_connections(path), "the server listens")
            self.assertIsNone(child.poll(), way)
            yield child, path

    def served_files(self, way, directory, put):
        """The files that a server leaves, which has these streams closed, and is killed once the put is answered."""
        with self.copied(directory) as copy:
            with self.started(way, copy) as (child, path):
                put(path)
                kill(child)
            files, found = files_of(copy), run("check", copy)
            self.assertEqual((b"", 0), (files["lock"], found[0]), way)
            return files, found[1]

    def check_served(self, directory, served, way):
        """It is as if nothing had been closed, and one change more."""
        count = int(run("check", directory)[1].splitlines()[2].removeprefix("prefix "))
        self.assertIn(f"prefix {count + 1}\n", served[1], way)
        self.assertEqual(self.served_files((), directory, put_a), served, way)

    def test_no_descriptor_is_left(self):
        """If /dev/null gets none, nothing else is opened."""
        def limit():
            os.close(0)
            resource.setrlimit(resource.RLIMIT_NOFILE, (3, 3))

        for words in (("init", "{}"), ("check", "{}"), ("serve", "{}", "--socket", "{}.socket"), ("mem",)):
            with self.copied(self.directory) as copy:
                status, printed, said = run(*(word.format(copy) for word in words), preexec_fn=limit)
                self.assertEqual((1, "", files_of(self.directory)), (status, printed, files_of(copy)), words)
                record, last = said.splitlines()
                self.assertRegex(record, r"^\[ERROR map_server::descriptors\] /dev/null can't be opened: Too many open files")
                self.assertEqual("unreadable", last)

    def test_serve(self):
        for directory, way in itertools.product(self.maps, WAYS):
            self.check_served(directory, self.served_files(way, directory, put_a), way)

    def test_call(self):
        """Its connection is no standard stream: the text of the reply isn't sent to the server."""
        def call(way, path):
            said = run_program(*line_of(way, CLOSED, ("call", "--socket", path, "put", "a", "i5")))
            self.assertEqual((0, "" if ">" in way else "was _\n", ""), said, way)

        for directory, way in itertools.product(self.maps, WAYS):
            served = self.served_files((), directory, functools.partial(call, way))
            self.check_served(directory, served, way)
