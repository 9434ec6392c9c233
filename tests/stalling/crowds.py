"""Many clients: of the whole map, those that read nothing, more than there are places, and few descriptors."""
import collections
import concurrent.futures
import contextlib
import os
import re
import resource
import select
import subprocess
import threading
import time

from harness import plain
from harness.frames import frame, reply_bytes
from harness.plain import Function, Method
from harness.served import COUNT, GET_LONG, LONG, PUT, WAS_ABSENT, MapTest
from harness.servers import Dchm, init, temporary_directory
from harness.suite import MOST_TURNS, wait_until
from stalling.rooms import REPLY_SECONDS, ask, connected, get, now, put, read_bytes, served

GET_ABSENT = Dchm.request("get", b"absent")
REDUCE = frame(bytes([Method.reduce, Function.SUM]) + (1).to_bytes(8, "big"))
# Clients of the whole map, what each asks in one piece, and how many others' replies may come before that of a Count.
CROWD, REDUCTIONS, MOST_BEFORE = 100, 64, 16
# How many of them are answered before a Count is asked for, how often it is, and behind how many replies for each of the
# crowd none of it is left without one.
BEGUN, COUNTS, FAIR_ROUNDS = 20, 7, 2
GETS = 1000
# How many keys there are. Of more, by hand: how long a Count may take, and how much longer a Get at the 99th percentile.
USUAL_KEYS = 20_000
COUNT_SECONDS, SLOWER = 1, 3
DEAF, DEAF_BYTES = 4000, 128 << 10
# What they ask for first, which fills a socket nearly; then a row, or as much as the server reads at a time.
FIRST, ROW, PIECE = GET_LONG * 50, GET_LONG * 64, GET_LONG * 7000
# How many of them come before they are waited for.
TOGETHER = 50
LIMITS, FEW_SECONDS = range(5, 25), 3
# The record of a server that can't accept a connection.
NO_ROOM = b"no connection can be accepted"
# The memory of a process is still if so many looks differ by no more.
STILL_LOOKS, STILL_BYTES = 12, 1 << 20


def wait_until_still(value):
    """What it is once many looks in a row give nearly the same."""
    last = collections.deque(maxlen=STILL_LOOKS)

    def is_still():
        last.append(value())
        return len(last) == STILL_LOOKS and max(last) - min(last) <= STILL_BYTES
    wait_until(is_still)
    return last[-1]


def memory_of(room):
    """The bytes of memory that the server has."""
    with open(f"/proc/{room.child.pid}/status", encoding="ascii") as file:
        return int(re.search(r"VmRSS:\s+(\d+) kB", file.read())[1]) << 10


class Crowds(MapTest):
    # Set by tests/sockets: how many keys there are in the map of the crowd.
    keys = USUAL_KEYS

    def fill(self, client):
        for first in range(0, self.keys, 1000):
            numbers = range(first, min(first + 1000, self.keys))
            client.sendall(b"".join(put(b"k%d" % number, number) for number in numbers))
            self.assertEqual(WAS_ABSENT * len(numbers), read_bytes(client, len(WAS_ABSENT) * len(numbers)))

    def latencies(self, client):
        """How long each of many Gets takes; each is answered."""
        for number in range(GETS):
            began = time.monotonic()
            self.assertEqual(None, ask(client, get(b"k%d" % (number % self.keys)), now(number % self.keys)), f"get {number}")
            yield time.monotonic() - began

    def test_counts_and_gets_beside_a_crowd_of_reductions(self):
        """A Count isn't behind all that others have asked, and Gets go on. The crowd is answered, each of it in turn."""
        total = reply_bytes(plain.NOW, self.keys * (self.keys - 1) // 2)
        with served(self.program, "port", workers=4) as room, contextlib.ExitStack() as stack:
            counting, getting = (stack.enter_context(connected(room.place)) for _ in range(2))
            self.fill(counting)
            alone = sorted(self.latencies(getting))
            crowd = [stack.enter_context(connected(room.place)) for _ in range(CROWD)]
            came = [0] * CROWD
            reading = threading.Thread(target=read_on, args=(crowd, came, len(total) * REDUCTIONS), daemon=True)
            reading.start()
            for client in crowd:
                client.sendall(REDUCE * REDUCTIONS)
            turns = MOST_TURNS * (1 + self.keys // USUAL_KEYS)
            self.assertTrue(wait_until(lambda: sum(came) >= BEGUN * len(total), turns), "the crowd isn't answered")
            between, seconds = [], []
            for _ in range(COUNTS):
                before, began = sum(came), time.monotonic()
                self.assertEqual(None, ask(counting, COUNT, now(self.keys)), "a count beside the crowd")
                between.append((sum(came) - before) // len(total))
                seconds.append(time.monotonic() - began)
            beside = sorted(self.latencies(getting))
            is_over = sum(came) == CROWD * REDUCTIONS * len(total)
            said = (f"{self.keys} keys; others' replies before a Count: {between}; a Count took {max(seconds):.2f} s, a Get "
                    f"(p99) {alone[-GETS // 100] * 1e6:.0f} us alone, {beside[-GETS // 100] * 1e6:.0f} us beside the crowd"
                    f"{', which was over before' if is_over else ''}")
            print(said, flush=True)
            self.assertLessEqual(sorted(between)[COUNTS // 2], MOST_BEFORE, said)
            if self.keys > USUAL_KEYS:
                self.assertLess(max(seconds), COUNT_SECONDS, said)
                self.assertLess(beside[-GETS // 100], SLOWER * alone[-GETS // 100], said)
            rounds = FAIR_ROUNDS * CROWD * len(total)
            self.assertTrue(wait_until(lambda: sum(came) >= rounds, turns), f"{sum(came)} of {rounds} bytes came of the crowd's")
            self.assertGreaterEqual(min(came), len(total), "one of the crowd is left behind")

    def need_descriptors(self, most):
        _, hard = resource.getrlimit(resource.RLIMIT_NOFILE)
        if hard != resource.RLIM_INFINITY and hard < most:
            self.skipTest(f"a process may have fewer than {most} descriptors")
        soft, _ = resource.getrlimit(resource.RLIMIT_NOFILE)
        if soft != resource.RLIM_INFINITY and soft < most:
            resource.setrlimit(resource.RLIMIT_NOFILE, (most, hard))

    def test_what_is_held_for_clients_that_read_nothing(self):
        self.hold(ROW)

    def test_what_is_held_for_them_with_much_in_hand(self):
        self.hold(PIECE)

    def hold(self, more):
        """What is held for clients that read nothing is bounded, and serves those that come once they have left."""
        self.need_descriptors(DEAF + 200)
        with served(self.program, "socket", workers=4) as room:
            with connected(room.place) as client:
                ask(client, LONG, WAS_ABSENT)
                ask(client, GET_LONG, now("t" * 4096))
                before = memory_of(room)
                held, later = (self.held_for_crowd(room, client, more) - before for _ in range(2))
        said = f"{held >> 10} KiB for {DEAF} clients, {held // DEAF >> 10} each; {later >> 10} for as many that came later"
        print(said, flush=True)
        self.assertLessEqual(held, DEAF * DEAF_BYTES, said)
        self.assertLess(later, held * 5 / 4, said)

    def held_for_crowd(self, room, client, more):
        """The memory of the server while a crowd reads nothing, which has left then."""
        descriptors = room.descriptors()
        with contextlib.ExitStack() as stack:
            deaf = []
            for number in range(DEAF):
                deaf.append(stack.enter_context(connected(room.place)))
                deaf[-1].sendall(FIRST)
                if number % TOGETHER == 0:
                    self.assertEqual(None, ask(client, GET_LONG, now("t" * 4096)))
            for each in deaf:
                each.sendall(more)
            held = wait_until_still(lambda: memory_of(room))
        self.wait_until(lambda: room.descriptors() <= descriptors, "they have left")
        return held

    def test_few_descriptors(self):
        """It listens and serves, or says that there is no room for a connection, or ends with status 1."""
        with concurrent.futures.ThreadPoolExecutor(8) as pool:
            faults = [fault for fault in pool.map(self.starts_with, LIMITS) if fault]
        self.assertEqual([], faults)

    def starts_with(self, limit):
        """What is wrong with a server that may have so many descriptors."""
        with temporary_directory() as room:
            directory, path = os.path.join(room, "map"), os.path.join(room, "socket")
            init(self.program, directory)
            # A shell sets the limit, so that Python needs none of them.
            words = ["sh", "-c", 'ulimit -n "$0" && exec "$@"', str(limit), self.program, "serve", directory, "--socket", path]
            with subprocess.Popen(words, stdin=subprocess.DEVNULL, stdout=subprocess.PIPE, stderr=subprocess.PIPE) as child:
                try:
                    ready, _, _ = select.select([child.stdout], [], [], REPLY_SECONDS)
                    if not ready:
                        return f"{limit} descriptors: it neither listens nor ends"
                    if child.stdout.readline():
                        wrong = self.fault_of_served(path)
                        child.kill()
                        has_said = NO_ROOM in child.stderr.read()
                        return None if has_said or not wrong else f"{limit} descriptors: it listens, and then {wrong}"
                    status = child.wait(REPLY_SECONDS)
                    return None if status == 1 and child.stderr.read() else f"{limit} descriptors: status {status}"
                finally:
                    child.kill()

    def fault_of_served(self, path):
        try:
            with connected(path, seconds=FEW_SECONDS) as client:
                return ask(client, PUT, WAS_ABSENT)
        except ConnectionError as error:
            return str(error)


def read_on(clients, came, wanted):
    """Reads what comes for each, until all has come."""
    poll = select.epoll()
    for number, client in enumerate(clients):
        poll.register(client.fileno(), select.EPOLLIN)
    numbers = {client.fileno(): number for number, client in enumerate(clients)}
    with poll, contextlib.suppress(OSError):
        while sum(came) < wanted * len(clients):
            for descriptor, _ in poll.poll(1):
                number = numbers[descriptor]
                more = len(clients[number].recv(1 << 16))
                came[number] += more
                if not more:
                    return


class Kept(MapTest):
    """Beside a port some places are kept for the Unix socket: whoever asks there is told that a full server is up."""

    def served_of(self, place, stack):
        """A client that is served, if there is a place for it."""
        client = stack.enter_context(connected(place))
        with contextlib.suppress(ConnectionError):
            if not ask(client, GET_ABSENT, now(None)):
                return client
        client.close()
        return None

    def fill(self, place, stack, most):
        """How many are served before one isn't."""
        count = 0
        while count <= most and self.served_of(place, stack):
            count += 1
        return count

    def test_a_full_server_answers_at_its_socket(self):
        """A place in eight, four at most. One that has left makes room for another."""
        for places, kept in ((4, 0), (8, 1), (17, 2), (40, 4)):
            path = self.directory + f".{places}"
            with contextlib.ExitStack() as stack:
                words = ("--socket", path, "--connections", str(places))
                room = stack.enter_context(served(self.program, "port", *words))
                self.assertEqual(places - kept, self.fill(room.place, stack, places), f"at the port, of {places}")
                with contextlib.ExitStack() as checks:
                    self.assertEqual(kept, self.fill(path, checks, places), f"at the socket, of {places}")
                for turn in range(10 if kept else 0):
                    with contextlib.ExitStack() as check:
                        self.assertTrue(wait_until(lambda: self.served_of(path, check)), f"it looks dead, turn {turn}")

    def test_at_one_place_none_is_kept(self):
        for kind in ("port", "socket"):
            with contextlib.ExitStack() as stack:
                room = stack.enter_context(served(self.program, kind, "--connections", "16"))
                self.assertEqual(16, self.fill(room.place, stack, 16), kind)
