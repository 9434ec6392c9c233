"""How a directory is opened: its locks, the order of its calls, and the rights of its files."""
import contextlib
import fcntl
import os
import stat

from harness.faulty import Page
from harness.files import FILES
from harness.servers import first_line, free_port, kill, process
from serving.called import TO_THE_END, Called
from serving.runs import IN_USE, PROGRAM, Process, run

LOCK = "lock"
# How often a lock is tried before its directory counts as in use.
LOCK_TRIES = 51


class Opening(Called):
    """The calls by which a directory is opened."""

    def check_order(self, calls):
        """Each file is opened and locked after `lock` was. Its length and its bytes are asked for after what is cached
        of it was given up."""
        for name in FILES:
            steps = [("lock", LOCK), ("open", name), ("lock", name), ("forget", name)]
            self.assertEqual(steps, [call for call in calls if call in steps], name)
            before = calls[:calls.index(("forget", name))]
            self.assertEqual([], [call for call in before if call in (("look", name), ("read", name))], name)
        self.assertLessEqual({("read", "ckpt-a"), ("read", "log-a")}, set(calls))

    def test_nothing_cached_is_read(self):
        self.assertEqual(0, run("check", self.directory, env=self.environment())[0])
        self.check_order(self.calls())

    def test_a_server_that_stands_by_opens_the_lock_alone(self):
        """As long as it waits; then it opens all files anew."""
        with self.served() as (server, _):
            port = free_port()
            line = [PROGRAM, "serve", self.directory, "--standby", "--port", str(port)]
            standby = self.stack.enter_context(
                process(line, self.directory + ".standby.errors", environment=self.environment()))
            tried = [("open", LOCK), ("lock", LOCK)]
            self.wait_until(lambda: os.path.exists(self.trace) and len(self.calls()) >= 6, "it has tried three times")
            waited = self.calls()
            self.assertEqual(tried * (len(waited) // 2), waited[:len(waited) // 2 * 2])
            kill(server)
            self.assertEqual(b"listening %d\n" % port, first_line(standby))
        calls = self.calls()
        self.check_order(calls[calls.index(("open", FILES[0])) - len(tried):])

    def test_a_lock_that_is_soon_free(self):
        """It is tried for a second."""
        for name, refused in ((LOCK, LOCK_TRIES - 1), *((name, 2) for name in FILES)):
            self.page = Page(self.page.path)
            status, _, said = run("check", self.directory, env=self.environment("lock", "EAGAIN", name, last=refused))
            self.assertEqual((0, ""), (status, said), name)
            self.assertEqual((refused + 1, refused), self.page.counts()[:2], name)

    def test_a_server_waits_for_a_lock_that_is_soon_free(self):
        line = [PROGRAM, "serve", self.directory, "--port", str(free_port())]
        environment = self.environment("lock", "EAGAIN", LOCK, last=LOCK_TRIES - 1)
        with process(line, self.directory + ".errors", environment=environment) as child:
            self.assertEqual(b"listening", first_line(child).split()[0])
        self.assertEqual(LOCK_TRIES, self.page.counts().calls)

    def test_a_lock_that_another_process_keeps(self):
        """It is tried so often, and then it is said."""
        lines = (("check", self.directory), ("init", self.directory), ("serve", self.directory, "--port", str(free_port())))
        for words in lines:
            self.page = Page(self.page.path)
            status, printed, said = run(*words, env=self.environment("lock", "EAGAIN", LOCK, last=TO_THE_END))
            self.assertEqual((1, ""), (status, printed), words)
            record, last = said.splitlines()
            self.assertRegex(record, rf"^\[ERROR .* the directory {self.directory} can't be opened: {IN_USE}$")
            self.assertEqual(IN_USE, last)
            self.assertEqual(LOCK_TRIES, self.page.counts().calls, words)


class Rights(Process):
    """Whatever the umask is, a file that is made is its owner's alone. One that is there keeps its rights."""
    NAMES = (*FILES, LOCK)

    def modes(self, directory):
        return {name: stat.S_IMODE(os.stat(os.path.join(directory, name)).st_mode) for name in self.NAMES}

    def test_made_by_init(self):
        for umask in (0o022, 0o000, 0o077):
            directory = f"{self.directory}.{umask:o}"
            os.mkdir(directory)
            self.assertEqual(0, run("init", directory, umask=umask)[0])
            self.assertEqual(dict.fromkeys(self.NAMES, 0o600), self.modes(directory), f"{umask:o}")

    def test_made_by_a_server(self):
        for name in ("ckpt-b", "log-b", LOCK):
            os.remove(os.path.join(self.directory, name))
        os.chmod(os.path.join(self.directory, "ckpt-a"), 0o640)
        before = os.umask(0)
        self.addCleanup(os.umask, before)
        with self.served():
            self.assertEqual({**dict.fromkeys(self.NAMES, 0o600), "ckpt-a": 0o640}, self.modes(self.directory))


class Restarts(Process):
    """A server that starts right behind the end of another."""

    def test_behind_a_kill(self):
        for _ in range(20):
            with self.served() as (server, _):
                server.kill()
                status, _, said = run("check", self.directory)
                self.assertEqual((0, ""), (status, said))

    def test_the_lock_of_another_process(self):
        """A real lock is told in the same words."""
        with open(os.path.join(self.directory, LOCK), "rb") as file, contextlib.ExitStack() as stack:
            fcntl.flock(file, fcntl.LOCK_EX)
            stack.callback(fcntl.flock, file, fcntl.LOCK_UN)
            status, printed, said = run("check", self.directory)
            self.assertEqual((1, "", IN_USE), (status, printed, said.splitlines()[-1]))
