"""What the server wrote arrives, however it ends the connection, at a client that reads late.

A socket that is closed while something is unread in it is reset, and what was sent before may be lost. So a server reads on,
and drops what it reads, for a bounded time and amount.
"""
import concurrent.futures
import contextlib
import signal
import threading
import time

from harness import plain
from harness.frames import refusal_bytes
from harness.served import BAD_FRAME, GET_LONG, LONG, PUT, WAS_ABSENT, MapTest
from harness.servers import Dchm
from harness.suite import wait_until
from stalling.rooms import ask, connected, difference, need_library, now, served

FAILED = refusal_bytes(plain.FAILED)
TEXT = now("t" * 4096)
MERGE = Dchm.request("merge", b"m", 1)
# A frame whose length is refused.
WRONG = b"\x00\x00"
# What is sent, piece by piece: what is answered and the frame that ends the connection, and what stands behind.
SHORT = (GET_LONG * 40, WRONG, *[PUT] * 23)
AT_ONCE = (GET_LONG * 40 + WRONG + PUT * 23,)
MANY = (MERGE * 3000 + WRONG, *[MERGE * 500] * 10)
DELAYS = (0.05, 0.1, 0.3)
PIECE_SECONDS = 0.002
CLIENTS = 20
# Within so many looks, some 15 seconds, a connection is gone that the server has ended.
END_TURNS = 300
# The most bytes that the server and the system may take behind an end: what is dropped, and what the sockets hold.
MOST_TAKEN = 32 << 20
PIECE = b"\x00" * 65536


def read_to_end(client):
    """All that comes, and how the connection ended."""
    content = b""
    try:
        while more := client.recv(1 << 16):
            content += more
        return content, "the end"
    except ConnectionError:
        return content, "a reset"
    except BlockingIOError:
        return content, "no end"


def fault_of(place, wanted, came, ended):
    """What is wrong with the replies of a connection that the server was to end. A reset at a Unix socket takes nothing."""
    wrong = difference(wanted, came)
    ends = ("the end",) if isinstance(place, int) else ("the end", "a reset")
    return f"{wrong or 'all replies came'}, then {ended}" if wrong or ended not in ends else None


def play(place, pieces, wanted, delay, is_small=False):
    """A client that sends all, and reads once it has waited: what is wrong with its replies."""
    with connected(place, is_small) as client:
        sending = threading.Thread(target=send_on, args=(client, pieces), daemon=True)
        sending.start()
        time.sleep(delay)
        fault = fault_of(place, wanted, *read_to_end(client))
        sending.join()
        return fault


def send_on(client, pieces):
    with contextlib.suppress(OSError):
        for piece in pieces:
            client.sendall(piece)
            time.sleep(PIECE_SECONDS)


def numbers(count):
    return b"".join(Dchm.now(number + 1) for number in range(count))


class Arriving:
    """What is played at a port and at a Unix socket."""

    def all_arrive(self, plays):
        """Plays clients beside each other."""
        with concurrent.futures.ThreadPoolExecutor(CLIENTS) as pool:
            faults = [fault for fault in pool.map(lambda words: play(*words), plays) if fault]
        self.assertEqual({}, {fault: faults.count(fault) for fault in sorted(set(faults))},
                         f"{len(faults)} of {len(plays)} clients lack something")

    def refused(self, *plays):
        """Clients that are refused with 86, with the words of `play` behind the place: their frames, and how they read."""
        with served(self.program, self.kind, workers=4) as room, connected(room.place) as client:
            ask(client, LONG, WAS_ABSENT)
            self.all_arrive([(room.place, pieces, TEXT * 40 + BAD_FRAME, *words) for pieces, *words in plays])

    def test_texts_before_86(self):
        self.refused(*((SHORT, delay) for delay in (0, *DELAYS) for _ in range(CLIENTS)))

    def test_texts_before_86_in_one_piece(self):
        self.refused(*((AT_ONCE, delay) for delay in (0, *DELAYS) for _ in range(CLIENTS)))

    def test_texts_before_86_with_little_room(self):
        self.refused(*((SHORT, delay, True) for delay in (0, *DELAYS) for _ in range(CLIENTS // 2)))

    def test_texts_before_86_that_are_read_nine_seconds_late(self):
        self.refused(*((SHORT, 9, is_small) for is_small in (False, True) for _ in range(4)))

    def test_texts_before_86_with_much_behind(self):
        """Up to nearly 1 MiB is dropped."""
        self.refused(*(((GET_LONG * 40 + WRONG, b"\x00" * behind), 0.1) for behind in (1, 4096, 65536, 300_000, 900_000)
                       for _ in range(4)))

    def test_numbers_before_86(self):
        """Of a connection alone, so that its numbers are known."""
        for delay in (*DELAYS, 0.3, 0.3):
            with served(self.program, self.kind) as room:
                self.all_arrive([(room.place, MANY, numbers(3000) + BAD_FRAME, delay)])

    def failed(self, plays):
        """The first client reads each reply before the failure, and all others are refused with 89 at once."""
        need_library(self)
        fault = {"FAULT_CALL": "write", "FAULT_HOW": "EIO", "FAULT_FROM": "3", "FAULT_TO": str(1 << 62)}
        with served(self.program, self.kind, workers=4, fault=fault) as room:
            with connected(room.place) as client:
                ask(client, LONG, WAS_ABSENT)
            self.all_arrive([(room.place, (GET_LONG * 40 + PUT * 24, *MANY), TEXT * 40 + FAILED, 0.3)])
            self.all_arrive([(room.place, *words) for words in plays])

    def test_89_with_much_behind(self):
        self.failed([((MERGE, MERGE * count), FAILED, delay) for delay in DELAYS for count in (1, 64, 5000) for _ in range(7)])

    def test_an_idle_end(self):
        """All replies were written long before; a part of a frame is there."""
        with served(self.program, self.kind, "--idle-seconds", "2") as room, connected(room.place) as client:
            ask(client, LONG, WAS_ABSENT)
            self.all_arrive([(room.place, (GET_LONG * 10 + PUT[:5],), TEXT * 10, 4)] * 4)

    def test_an_end_at_a_full_server(self):
        """Whoever is turned away sees an end, whatever it has sent. The server is halted until all have sent something."""
        with served(self.program, self.kind, "--connections", "1") as room, contextlib.ExitStack() as stack:
            ask(stack.enter_context(connected(room.place)), PUT, WAS_ABSENT)
            room.child.send_signal(signal.SIGSTOP)
            try:
                clients = [stack.enter_context(connected(room.place)) for _ in range(CLIENTS)]
                for number, client in enumerate(clients):
                    client.sendall((b"", PUT[:5], PUT * 23, MERGE * 1000)[number % 4])
            finally:
                room.child.send_signal(signal.SIGCONT)
            time.sleep(DELAYS[-1])
            faults = [fault_of(room.place, b"", *read_to_end(client)) for client in clients]
            self.assertEqual([], [fault for fault in faults if fault], f"of {CLIENTS} clients")

    def test_not_all_is_dropped(self):
        """A client that sends on and on is ended."""
        with served(self.program, self.kind) as room, connected(room.place) as client:
            client.sendall(WRONG)
            taken = 0
            with contextlib.suppress(ConnectionError):
                while taken < MOST_TAKEN:
                    taken += client.send(PIECE)
            self.assertLess(taken, MOST_TAKEN, "so many bytes were taken")

    def test_an_end_frees_its_place(self):
        """Clients that were refused, or turned away, and neither read nor leave, hold no place for long."""
        with served(self.program, self.kind, "--connections", "4") as room, contextlib.ExitStack() as stack:
            with connected(room.place) as client:
                ask(client, PUT, WAS_ABSENT)
                before = room.descriptors()
            for _ in range(8):
                stack.enter_context(connected(room.place)).sendall(GET_LONG * 40 + WRONG + PUT * 23)
            self.assertTrue(wait_until(lambda: self.is_served(room), END_TURNS), "no place is free again")
            self.assertTrue(wait_until(lambda: room.descriptors() < before, END_TURNS), "a connection is kept for long")

    def is_served(self, room):
        try:
            with connected(room.place) as client:
                return not ask(client, Dchm.request("get", b"none"), now(None))
        except ConnectionError:
            return False


class ArrivingAtAPort(Arriving, MapTest):
    kind = "port"


class ArrivingAtASocket(Arriving, MapTest):
    kind = "socket"
