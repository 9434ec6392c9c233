"""Servers at Unix sockets."""
import contextlib
import fcntl
import os
import shutil
import socket
import stat
import unittest

from harness.files import OLD_FILES, write_files
from harness.servers import HOST, dchm, dchm_at_socket, fill_backlog, first_line, init, kill, process, run_program
from serving.runs import CONNECTIONS, IN_USE, PROGRAM, Process, files_of, run

# A user without rights.
NOBODY = 65534


class Socket(Process):
    """A server at a Unix socket, and calls of it."""

    def setUp(self):
        super().setUp()
        self.path = self.directory + ".socket"

    def served_at(self, *words, directory=None):
        return dchm_at_socket(PROGRAM, directory or self.directory, CONNECTIONS, self.path, words)

    def call(self, *words):
        return run("call", "--socket", self.path, *words)

    def mode(self):
        return stat.S_IMODE(os.stat(self.path).st_mode)

    def cannot_serve(self, path, cause, directory=None, words=(), word="unreadable"):
        """A server that can't listen says why in one record, prints nothing, and leaves its directory as it was."""
        directory = directory or self.directory
        before = files_of(directory)
        status, printed, said = run("serve", directory, "--socket", path, *words)
        self.assertEqual((1, ""), (status, printed))
        *_, record, last = said.splitlines()
        self.assertTrue(record.startswith("[ERROR cmd_"), record)
        self.assertIn(cause, record)
        self.assertEqual((word, before), (last, files_of(directory)))

    def test_calls(self):
        with self.served_at():
            self.assertEqual((0, "was _\n", ""), self.call("put", "a", "i5"))
            calls = run("call", "--socket", self.path, "-", given="get a\nmerge a SUM i2\n")
            self.assertEqual((0, "now i5\nnow i7\n", ""), calls)
        self.assertEqual((1, "", "no reply\n"), self.call("get", "a"))

    def test_its_rights(self):
        for words, mode in (((), 0o600), (("--socket-mode", "0660"), 0o660), (("--socket-mode", "777"), 0o777)):
            with self.served_at(*words):
                self.assertEqual("s", stat.filemode(os.stat(self.path).st_mode)[0], "the kind of the file")
                self.assertEqual(mode, self.mode())
                self.assertEqual(["map", "map.errors", "map.socket"], sorted(os.listdir(os.path.dirname(self.path))))

    @unittest.skipUnless(os.geteuid() == 0, "only root may become another user")
    def test_another_user(self):
        """The system refuses one that the rights don't allow; the changes of others stay."""
        room = os.path.dirname(self.path)
        os.chmod(room, 0o755)
        program = shutil.copyfile(PROGRAM, os.path.join(room, "dchm"))
        os.chmod(program, 0o755)
        for words, wanted in (((), (1, "", "no reply\n")), (("--socket-mode", "666"), (0, "now i5\n", ""))):
            with self.served_at(*words):
                self.assertEqual(0, self.call("put", "a", "i5")[0])
                called = run_program(program, "call", "--socket", self.path, "get", "a", user=NOBODY, group=NOBODY,
                                     extra_groups=())
                self.assertEqual(wanted, called, words)

    def test_the_file_of_a_killed_server_is_replaced(self):
        for life in range(3):
            with self.served_at() as (child, _):
                file = os.stat(self.path).st_ino
                self.assertEqual((0, f"now i{life + 1}\n", ""), self.call("merge", "a", "SUM", "i1"))
                kill(child)
            self.assertEqual(file, os.stat(self.path).st_ino)
            self.assertEqual((1, "", "no reply\n"), self.call("get", "a"))

    def test_the_file_of_a_server_that_runs_stays(self):
        """Of the same directory, whose lock is held, and of another one."""
        other = self.directory + "2"
        init(PROGRAM, other)
        with self.served_at():
            file = os.stat(self.path).st_ino
            self.cannot_serve(self.path, "the directory", word=IN_USE)
            self.cannot_serve(self.path, f"the socket {self.path} can't be listened on: another server", directory=other)
            self.assertEqual(file, os.stat(self.path).st_ino)
            self.assertEqual((0, "was _\n", ""), self.call("put", "a", "i5"))

    def test_another_is_about_to_listen(self):
        """While a process holds the directory beside the path, what it made there stays. Once it has ended, it is cleared."""
        room = self.path + ".new"
        os.mkdir(room, 0o700)
        held = os.open(room, os.O_RDONLY)
        fcntl.flock(held, fcntl.LOCK_EX)
        with contextlib.closing(socket.socket(socket.AF_UNIX)) as theirs:
            theirs.bind(os.path.join(room, "s"))
            self.cannot_serve(self.path, "another server is about to listen there")
            self.assertEqual((["s"], False), (os.listdir(room), os.path.exists(self.path)))
        os.close(held)
        with self.served_at():
            self.assertFalse(os.path.exists(room))
            self.assertEqual((0, "was _\n", ""), self.call("put", "a", "i5"))

    def test_servers_that_start_together(self):
        """Of servers of several directories at one path one listens, and is reached. The others say why not."""
        directories = [f"{self.directory}{number}" for number in range(4)]
        for number, directory in enumerate(directories):
            init(PROGRAM, directory)
            with dchm(PROGRAM, directory, 1) as (_, port):
                self.assertEqual(0, run("call", "--port", str(port), "put", "own", f"i{number}")[0])
        for _ in range(10):
            with contextlib.ExitStack() as stack:
                lines = [[PROGRAM, "serve", directory, "--socket", self.path] for directory in directories]
                servers = [stack.enter_context(process(line, line[2] + ".errors")) for line in lines]
                said = [first_line(child) for child in servers]
                self.assertEqual(1, sum(line != b"" for line in said), said)
                number = said.index(b"listening %s\n" % self.path.encode())
                self.assertEqual((0, f"now i{number}\n", ""), self.call("get", "own"))
                self.assertFalse(os.path.exists(self.path + ".new"))
                for child in servers:
                    child.kill()
                    child.wait()

    def test_a_server_that_takes_no_connection(self):
        """It listens there, though no more of them can wait for it."""
        with socket.socket(socket.AF_UNIX) as listener:
            listener.bind(self.path)
            listener.listen(0)
            waiting = fill_backlog(listener)
            self.cannot_serve(self.path, f"the socket {self.path} can't be listened on: another server listens there")
            for client in waiting:
                client.close()

    def test_what_is_no_socket_stays(self):
        with open(self.path, "wb") as file:
            file.write(b"kept")
        self.cannot_serve(self.path, "a file is there that isn't a socket")
        with open(self.path, "rb") as file:
            self.assertEqual(b"kept", file.read())
        os.remove(self.path)
        for make in (os.mkdir, lambda path: os.symlink(self.directory, path)):
            make(self.path)
            kind = stat.S_IFMT(os.lstat(self.path).st_mode)
            self.cannot_serve(self.path, "a file is there that isn't a socket")
            self.assertEqual(kind, stat.S_IFMT(os.lstat(self.path).st_mode))
            (os.rmdir if stat.S_ISDIR(kind) else os.remove)(self.path)
        self.cannot_serve(os.path.join(self.path, "s"), "No such file or directory")

    def test_an_old_directory(self):
        """It is upgraded once what it listens at is bound, and not before."""
        write_files(self.directory, OLD_FILES)
        os.mkdir(self.path)
        self.cannot_serve(self.path, "a file is there that isn't a socket")
        os.rmdir(self.path)
        with self.served_at() as (child, _):
            self.assertIn("upgraded to version 2", self.records())
            self.assertEqual((0, "now i5\n", ""), self.call("get", "a"))
            kill(child)

    def test_a_port_that_is_taken(self):
        """Then the socket's file isn't touched, and no line is printed."""
        with self.served_at() as (child, _):
            kill(child)
        file = os.stat(self.path).st_ino
        with socket.create_server((HOST, 0)) as taken:
            port = taken.getsockname()[1]
            self.cannot_serve(self.path, f"port {port} can't be listened on", words=("--port", str(port)))
        self.assertEqual(file, os.stat(self.path).st_ino)

    def test_the_longest_path(self):
        """At 107 bytes it is made in a directory whose own path is longer."""
        for count in (101, 102, 107):
            self.path = self.directory + "." + "s" * (count - len(self.directory) - 1)
            with self.served_at():
                self.assertEqual(0o600, self.mode())
                self.assertEqual((0, "now _\n", ""), self.call("get", "a"))

    def test_words(self):
        for words in (("--port", "7411", "--socket", self.path), ()):
            self.assertEqual((2, "", "one of --port P and --socket PATH is wanted\n"), run("call", *words, "get", "a"))
        for wrong in ("", "x" * 108):
            self.assertEqual((2, "", "PATH has from 1 to 107 bytes\n"), run("call", "--socket", wrong, "get", "a"))
            for words in ((), ("--port", "7411")):
                self.assertEqual((2, "", "PATH has from 1 to 107 bytes\n"), run("serve", "nowhere", "--socket", wrong, *words))
        self.assertEqual((2, "", "--port P or --socket PATH is wanted, or both\n"), run("serve", "nowhere"))
        self.assertEqual((2, "", "P is a number from 1 to 65535\n"),
                         run("serve", "nowhere", "--port", "0", "--socket", self.path))
        for wrong in ("", "8", "1000", "0o600", "rw", "-1"):
            for words in (("--socket", self.path), ("--port", "7411")):
                self.assertEqual((2, "", "a socket's mode is an octal number from 0 to 777\n"),
                                 run("serve", "nowhere", *words, f"--socket-mode={wrong}"))
