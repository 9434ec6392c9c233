"""A server that is killed and started again, and the workers of a recipe beside it, which are killed too."""
import contextlib
import os
import random
import subprocess
import threading
import time

from harness import servers
from harness.places import read
from harness.suite import wait_until

NAMES = ("w0", "w1", "w2")
# After so many lines of all workers the next one is killed. Each goes on for some lines more after the last kill.
LINES_BETWEEN, LINES_AFTER = 30, 20
MOST_TURNS, SERVER_WORKERS, CALL_SECONDS = 3000, 4, 60


class Killed:
    """`dchm serve` of a directory at one port, which is killed and started again."""

    def __init__(self, program, directory):
        self.program, self.directory, self.port, self.child = program, directory, servers.free_port(), None
        servers.init(program, directory)

    def listens(self):
        words = [self.program, "serve", self.directory, "--port", str(self.port), "--workers", str(SERVER_WORKERS)]
        with open(self.directory + ".errors", "ab") as errors:
            self.child = subprocess.Popen(words, stdin=subprocess.DEVNULL, stdout=subprocess.PIPE, stderr=errors)
        if servers.first_line(self.child) == b"listening %d\n" % self.port:
            return True
        self.kill()
        return False

    def start(self):
        if not wait_until(self.listens, MOST_TURNS):
            raise RuntimeError("the server doesn't start: " + read(self.directory + ".errors"))

    def kill(self):
        if self.child:
            servers.kill(self.child)
            self.child.stdout.close()
        self.child = None

    def call(self, *words, given=None):
        """What a run of `dchm call` prints."""
        status, printed, said = servers.run_program(self.program, "call", "--port", str(self.port), *words, given=given,
                                                    seconds=CALL_SECONDS)
        if status:
            raise RuntimeError(f"call {words}: status {status}, {said}")
        return printed

    def values(self, keys):
        """The values of the keys as `dchm call` prints them, such as `i5` and `ta text`; `_` if there is none."""
        printed = self.call("-", given="".join(f"get {key}\n" for key in keys)) if keys else ""
        return dict(zip(keys, (line.removeprefix("now ") for line in printed.splitlines()), strict=True))

    def count(self):
        return int(self.call("count").removeprefix("now i"))


class Worker:
    """A process under one name, which is killed and started again, and the lines of all its lives."""

    def __init__(self, words, name, errors):
        self.words, self.name, self.errors = words, name, errors
        self.lines, self.kills, self.child = [], 0, None

    def start(self):
        self.child = subprocess.Popen(self.words, stdin=subprocess.PIPE, stdout=subprocess.PIPE, stderr=self.errors, text=True)
        self.reader = threading.Thread(target=self.read, args=(self.child.stdout,), daemon=True)
        self.reader.start()

    def read(self, stream):
        with contextlib.suppress(ValueError), stream:
            for line in stream:
                if line.endswith("\n"):
                    self.lines.append(line.split())

    def kill(self):
        self.kills += 1
        servers.kill(self.child)
        self.child.stdin.close()
        self.reader.join()

    def end(self):
        """Lets it end by itself; returns its status."""
        self.child.stdin.close()
        ended = wait_until(lambda: self.child.poll() is not None, MOST_TURNS)
        if not ended:
            self.kill()
        self.reader.join()
        return self.child.returncode if ended else "none: it doesn't end"


@contextlib.contextmanager
def beside_kills(program, words, kills):
    """The workers of a recipe after all kills, and the server, which still runs. `words(port, name)` starts a worker."""
    with servers.temporary_directory() as room, open(os.path.join(room, "errors"), "w+", encoding="utf-8") as errors:
        server = Killed(program, os.path.join(room, "map"))
        server.start()
        workers = {name: Worker(words(str(server.port), name), name, errors) for name in NAMES}
        try:
            play(server, workers, kills)
            statuses = [worker.end() for worker in workers.values()]
            errors.seek(0)
            if statuses != [0] * len(workers):
                raise AssertionError(f"workers ended with {statuses}: {errors.read()[-2000:]}")
            yield list(workers.values()), server
        finally:
            for worker in workers.values():
                if worker.child and worker.child.poll() is None:
                    worker.kill()
            server.kill()


def play(server, workers, kills):
    for worker in workers.values():
        worker.start()
    chance = random.Random(1)

    def go_on(holds):
        if not wait_until(holds, MOST_TURNS):
            raise AssertionError("the workers don't go on: " + str([worker.lines[-1:] for worker in workers.values()]))

    def lines():
        return sum(len(worker.lines) for worker in workers.values())

    for killed in kills:
        wanted = lines() + LINES_BETWEEN
        go_on(lambda: lines() >= wanted)
        time.sleep(chance.random() * 0.05)
        (server if killed == "server" else workers[killed]).kill()
        (server if killed == "server" else workers[killed]).start()
    # Whatever a killed worker left is taken over or given back before the end.
    last = {name: len(worker.lines) + LINES_AFTER for name, worker in workers.items()}
    go_on(lambda: all(len(worker.lines) >= last[name] for name, worker in workers.items()))


def of_kind(workers, kind):
    return [line[1:] for worker in workers for line in worker.lines if line[0] == kind]


def kills_of(workers):
    return sum(worker.kills for worker in workers)
