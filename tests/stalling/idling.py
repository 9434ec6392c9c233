"""A client that takes replies, or sends, is not idle, however slowly."""
import concurrent.futures
import contextlib
import threading
import time

from harness.served import GET_LONG, LONG, PUT, WAS_ABSENT, MapTest
from stalling.rooms import ask, connected, difference, now, read_bytes, served

IDLE_SECONDS = 2
IDLE = ("--idle-seconds", str(IDLE_SECONDS))
# For how long slow clients take few bytes.
SECONDS = 7
TEXT = now("t" * 4096)
# How many bytes a second they take, and of how many texts: sockets hold less.
RATES = (100_000, 200_000, 400_000)
TEXTS = 6000
MOST_BYTES, TURN_SECONDS = 1 << 16, 0.02
# How often a client is tried that the system didn't let run for long.
MOST_TRIES = 3


def ask_on(client, count):
    with contextlib.suppress(OSError):
        client.sendall(GET_LONG * count)


class Slow:
    """A client that asks for more than sockets hold, takes so many bytes a second for a while, and then all."""

    def __init__(self, client, rate):
        self.client, self.rate, self.came, self.longest = client, rate, bytearray(), 0
        asking = threading.Thread(target=ask_on, args=(client, TEXTS), daemon=True)
        asking.start()

    def due(self, gone):
        """How many bytes it is to have taken by now."""
        return TEXTS * len(TEXT) if gone > SECONDS else int(gone * self.rate)

    def take_some(self, count):
        """Takes at most so many bytes; says how it ended, if it did."""
        try:
            more = self.client.recv(min(count, MOST_BYTES))
        except BlockingIOError:
            return "nothing came for long"
        except ConnectionError as error:
            return str(error)
        self.came += more
        return None if more else "the end"

    def take(self):
        """Takes the replies; says what is wrong with them."""
        began = last = time.monotonic()
        ended = None
        while not ended and len(self.came) < TEXTS * len(TEXT):
            due = self.due(last - began) - len(self.came)
            if due > 0:
                ended = self.take_some(due)
            else:
                time.sleep(TURN_SECONDS)
            last, before = time.monotonic(), last
            self.longest = max(self.longest, last - before)
        wrong = difference(TEXT * TEXTS, bytes(self.came))
        said = f"{wrong}, then {ended} after {last - began:.1f} s; it was away for {self.longest:.1f} s at most"
        return wrong and f"{self.rate} bytes a second: {said}"


def take_slowly(place, rate, is_small):
    """What is wrong with the replies of a slow client. One that had no turn for long itself is tried again."""
    for _ in range(MOST_TRIES):
        with connected(place, is_small) as client:
            slow = Slow(client, rate)
            wrong = slow.take()
        if not wrong or slow.longest < IDLE_SECONDS / 2:
            break
    return wrong


def send_bytewise(place, frame, seconds):
    """Sends a byte each so many seconds, and reads the reply: what is wrong with it, and the longest time between two bytes."""
    longest, last = 0, time.monotonic()
    try:
        with connected(place) as client:
            for byte in frame:
                client.sendall(bytes([byte]))
                last, before = time.monotonic(), last
                longest = max(longest, last - before)
                time.sleep(seconds)
            came = read_bytes(client, 4)
            return None if came[2:3] == b"\x00" else f"{frame.hex()}: came {came.hex()}", longest
    except ConnectionError as error:
        return f"{frame.hex()}: {error}", longest


def send_slowly(place, frame, seconds):
    """What is wrong with the reply to a frame that comes slowly. A client that had no turn for long is tried again."""
    for _ in range(MOST_TRIES):
        wrong, longest = send_bytewise(place, frame, seconds)
        if not wrong or longest < IDLE_SECONDS:
            break
    return wrong


class Idling:
    """What is played at a port and at a Unix socket."""

    def none_is_ended(self, plays):
        with served(self.program, self.kind, *IDLE, workers=2) as room:
            with connected(room.place) as client:
                ask(client, LONG, WAS_ABSENT)
            with concurrent.futures.ThreadPoolExecutor(len(plays)) as pool:
                running = [pool.submit(call, room.place, *words) for call, *words in plays]
                faults = [each.result() for each in running]
            self.assertEqual([], [fault for fault in faults if fault])

    def test_a_client_that_takes_replies_slowly(self):
        self.none_is_ended([(take_slowly, rate, is_small) for rate in RATES for is_small in (False, True)])

    def test_a_client_that_sends_slowly(self):
        """A frame of a dozen bytes, one each second, and one each half of that."""
        self.none_is_ended([(send_slowly, PUT, seconds) for seconds in (1, 0.5)])

    def test_a_client_that_stops_in_a_frame(self):
        """Who has sent a part of a frame and then nothing is idle."""
        with served(self.program, self.kind, *IDLE) as room, connected(room.place, seconds=30) as client:
            client.sendall(PUT[:9])
            with contextlib.suppress(ConnectionError):
                self.assertEqual(b"", client.recv(1), "it isn't ended")

    def test_a_client_that_takes_nothing_more(self):
        """Who has taken some replies and then none is idle, though it has asked for more."""
        with served(self.program, self.kind, *IDLE) as room, connected(room.place, True) as client:
            ask(client, LONG, WAS_ABSENT)
            before = room.descriptors()
            asking = threading.Thread(target=ask_on, args=(client, 4000), daemon=True)
            asking.start()
            self.assertEqual(TEXT * 20, read_bytes(client, 20 * len(TEXT)))
            asking.join(60)
            self.assertFalse(asking.is_alive(), "the server goes on with it")
            self.wait_until(lambda: room.descriptors() < before, "it was ended")


class IdlingAtAPort(Idling, MapTest):
    kind = "port"


class IdlingAtASocket(Idling, MapTest):
    kind = "socket"
