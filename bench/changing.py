"""Clients that change a map, and what they were told."""
import contextlib
import threading
import time

from measuring import counters, servers

ADDERS, PUTTERS = 4, 8
# How many requests are sent before their replies are read.
TOGETHER = 64


def counter(number):
    return b"counter%d" % number


def plus(numbers, more):
    return [number + another for number, another in zip(numbers, more)]


class Client(threading.Thread):
    """Makes one change after another until it is to stop, is refused with 9, or has no reply."""

    def __init__(self, port, stop):
        super().__init__(daemon=True)
        self.stop, self.connection = stop, servers.Connection(servers.Dchm, port)
        self.sent = self.answered = 0
        # When the last one that was answered was sent, when it was answered, and a reply that none may have.
        self.begun, self.last, self.wrong = None, None, None
        self.seconds, self.is_refused = [], False

    def run(self):
        with contextlib.closing(self.connection), contextlib.suppress(OSError):
            while not (self.stop.is_set() or self.is_refused or self.wrong):
                self.change()

    def change(self):
        begun = time.monotonic()
        self.sent += 1
        reply = self.connection.exchange(self.request(self.sent))
        self.is_refused = reply == counters.FAILED
        if self.is_refused:
            return
        if not self.is_right(reply):
            self.wrong = reply.hex(" ")
            return
        self.answered += 1
        self.begun, self.last = begun, time.monotonic()
        self.seconds.append(self.last - begun)


class Adder(Client):
    """Adds 1 to a counter of its own."""

    def __init__(self, number, port, stop):
        super().__init__(port, stop)
        self.key = counter(number)

    def request(self, _number):
        return servers.Dchm.request("merge", self.key, 1)

    @staticmethod
    def is_right(reply):
        return servers.Dchm.number("merge", reply) is not None


class Putter(Client):
    """Puts its n-th number at a key that nobody else has."""

    def __init__(self, prefix, port, stop):
        super().__init__(port, stop)
        self.prefix = prefix

    def key(self, number):
        return b"%s-%d" % (self.prefix, number)

    def request(self, number):
        return servers.Dchm.request("put", self.key(number), number)

    @staticmethod
    def is_right(reply):
        return servers.Dchm.number("put", reply) is None

    def keys(self):
        """The keys of what was sent, in order."""
        return [self.key(number) for number in range(1, self.sent + 1)]

    def faults(self, found):
        """What is wrong with the numbers that were found at its keys."""
        for number, value in enumerate(found, 1):
            if value != number and (value is not None or number <= self.answered):
                yield f"{self.key(number).decode()} is {value}, and {self.answered} were answered"


class Load:
    """Clients beside each other; without a prefix for its keys none puts."""

    def __init__(self, port, prefix=None):
        self.stop = threading.Event()
        self.adders = [Adder(number, port, self.stop) for number in range(ADDERS)]
        prefixes = [] if prefix is None else [b"%s-%d" % (prefix, number) for number in range(PUTTERS)]
        self.putters = [Putter(one, port, self.stop) for one in prefixes]
        self.clients = [*self.adders, *self.putters]
        for client in self.clients:
            client.start()

    def end(self):
        self.stop.set()
        for client in self.clients:
            client.join(60)

    def sent(self):
        return [adder.sent for adder in self.adders]

    def answered(self):
        return [adder.answered for adder in self.adders]

    def all_answered(self):
        return sum(client.answered for client in self.clients)

    def times(self):
        times = sorted(seconds * 1000 for client in self.clients for seconds in client.seconds)
        return (f"{len(times)} calls answered, median {times[len(times) // 2]:.0f} ms, 99 of 100 below "
                f"{times[len(times) * 99 // 100]:.0f} ms, greatest {times[-1]:.0f} ms")


def replies_together(port, requests):
    """The replies to all these requests, over one connection."""
    with contextlib.closing(servers.Connection(servers.Dchm, port)) as connection, connection.socket.makefile("rb") as file:
        for begin in range(0, len(requests), TOGETHER):
            part = requests[begin:begin + TOGETHER]
            connection.socket.sendall(b"".join(part))
            for _ in part:
                length = file.read(2)
                yield length + file.read(int.from_bytes(length, "big"))


def numbers_at(port, keys):
    """The numbers at these keys, None for a key that is absent."""
    requests = [servers.Dchm.request("get", key) for key in keys]
    return [servers.Dchm.number("get", reply) for reply in replies_together(port, requests)]


def present(port, keys):
    """Those of the keys that are there."""
    return [key for key, number in zip(keys, numbers_at(port, keys)) if number is not None]


def change_together(port, requests):
    """Makes these Puts and Removes; each has a reply of its kind."""
    for reply in replies_together(port, requests):
        servers.Dchm.number("put", reply)


def remove(port, keys):
    change_together(port, [servers.frame(bytes([servers.Method.remove]) + servers.key_bytes(key)) for key in keys])
