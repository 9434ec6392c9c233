"""Clients that take their replies late, while the disk is slow and a change behind those replies isn't durable yet.

A server may find nothing to do for such a client but to write on. Each reply has to come, in order, also if nothing else
happens at that worker.
"""
import concurrent.futures
import contextlib
import threading
import time

from harness.faulty import FOR_EVER
from harness.served import MapTest
from stalling.rooms import ask, connected, difference, get, need_library, now, put, read_bytes, served, was

# Texts of 4,000 bytes, which differ at each place and from each other.
TEXTS = ["".join(f"{letter}{at:04d}" for at in range(800)) for letter in "abc"]
# How many Gets stand before the Put: all that fit in a row with it, from those that a socket holds.
GETS = range(20, 64)
# So many servers are tried beside each other, each with some of these numbers.
LANES = 11
SYNC_MILLIS = 100
# How long a client waits that reads late: until its replies fill the socket, and not until the Put is durable.
LATE_SECONDS = 0.1
DROP_BYTES, DROP_SECONDS = 6000, 0.002


class Row:
    """Gets of the texts and a Put behind them: what is sent, and what is to come."""

    def __init__(self, gets, key, number):
        names = [b"text %d" % (at % len(TEXTS)) for at in range(gets)]
        self.sent = b"".join(map(get, names)) + put(key, number)
        self.texts = b"".join(now(TEXTS[at % len(TEXTS)]) for at in range(gets))
        self.last = was(number - 1 if number else None)

    def fault(self, came):
        return difference(self.texts + self.last, came)


def late(room, client, row):
    """Reads once it has slept."""
    client.sendall(row.sent)
    time.sleep(LATE_SECONDS)
    return row.fault(read_bytes(client, len(row.texts + row.last)))


def in_drops(room, client, row):
    """Reads small pieces, with a rest behind each."""
    client.sendall(row.sent)
    time.sleep(LATE_SECONDS / 2)
    came = b""
    while len(came) < len(row.texts + row.last):
        more = read_bytes(client, min(DROP_BYTES, len(row.texts + row.last) - len(came)))
        if not more:
            break
        came += more
        time.sleep(DROP_SECONDS)
    return row.fault(came)


def when_told(room, client, row):
    """The disk is frozen, and thaws once all replies but the last have come."""
    room.page.delay_syncs(FOR_EVER)
    try:
        client.sendall(row.sent)
        time.sleep(LATE_SECONDS)
        came = read_bytes(client, len(row.texts))
    finally:
        room.page.delay_syncs(SYNC_MILLIS)
    return row.fault(came + read_bytes(client, len(row.last)))


@contextlib.contextmanager
def nobody(_):
    yield


@contextlib.contextmanager
def idle(room):
    """A client that was answered once."""
    with connected(room.place) as client:
        ask(client, get(b"text 0"), now(TEXTS[0]))
        yield


@contextlib.contextmanager
def busy(room):
    """A client that asks on and on."""
    has_ended = threading.Event()

    def ask_on():
        with connected(room.place) as client:
            while not has_ended.is_set() and not ask(client, get(b"none"), now(None)):
                time.sleep(DROP_SECONDS)

    asking = threading.Thread(target=ask_on)
    asking.start()
    try:
        yield
    finally:
        has_ended.set()
        asking.join()


class Sleeping:
    """What is played at a port and at a Unix socket."""

    def setUp(self):
        super().setUp()
        need_library(self)

    def play(self, read, company=nobody, gets=GETS, clients=1):
        """Plays rows of these numbers of Gets on servers of one worker, with so many clients each."""
        with concurrent.futures.ThreadPoolExecutor(LANES) as pool:
            lanes = [pool.submit(self.lane, read, company, gets[number::LANES], clients) for number in range(LANES)]
            faults = [lane.result() for lane in lanes]
        self.assertEqual([], [fault for fault in faults if fault])

    def lane(self, read, company, gets, clients):
        """What is wrong with the first row that fails of each client of a server."""
        with served(self.program, self.kind, fault={}) as room:
            with connected(room.place) as client:
                for number, text in enumerate(TEXTS):
                    ask(client, put(b"text %d" % number, text), was(None))
            room.page.delay_syncs(SYNC_MILLIS)
            with company(room), concurrent.futures.ThreadPoolExecutor(clients) as pool:
                rows = [pool.submit(self.rows, room, read, gets, b"n%d" % number) for number in range(clients)]
                return "; ".join(filter(None, (each.result() for each in rows)))

    def rows(self, room, read, gets, key):
        with connected(room.place, is_small=True) as client:
            for number, count in enumerate(gets):
                if fault := read(room, client, Row(count, key, number)):
                    return f"{count} Gets and a Put: {fault}"
        return None

    def test_replies_that_are_taken_late(self):
        self.play(late)

    def test_replies_that_are_taken_in_drops(self):
        self.play(in_drops)

    def test_replies_that_are_taken_while_the_disk_is_frozen(self):
        self.play(when_told)

    def test_late_beside_a_client_that_is_idle(self):
        self.play(late, idle, GETS[::2])

    def test_frozen_beside_a_client_that_is_idle(self):
        self.play(when_told, idle, GETS[::2])

    def test_late_beside_a_client_that_is_busy(self):
        self.play(late, busy, GETS[::2])

    def test_frozen_beside_a_client_that_is_busy(self):
        self.play(when_told, busy, GETS[::2])

    def test_several_clients_of_one_worker(self):
        self.play(late, gets=GETS[::2], clients=4)

    def test_several_in_drops(self):
        self.play(in_drops, idle, GETS[::2], clients=4)


class SleepingAtAPort(Sleeping, MapTest):
    kind = "port"


class SleepingAtASocket(Sleeping, MapTest):
    kind = "socket"
