"""Clients that add to shared counters, and what their replies show."""
import threading

from harness import plain
from harness.frames import refusal_bytes
from harness.servers import Connection, Dchm

COUNTERS = [b"c%d" % number for number in range(4)]
# The replies that are refused with 9 and with 7.
FAILED = refusal_bytes(plain.FAILED)
NO_MEMORY = refusal_bytes(plain.NO_MEMORY)


class Client(threading.Thread):
    """One connection's merges: for each counter how many were sent, and the numbers of its replies.

    It ends after `requests` merges, at the first reply that is refused with 9, or once the server is killed.
    """

    def __init__(self, index, port, requests, killed):
        super().__init__(daemon=True)
        self.index, self.requests, self.killed = index, requests, killed
        self.connection = Connection(Dchm, port)
        self.sent = {key: 0 for key in COUNTERS}
        self.replies = {key: [] for key in COUNTERS}
        self.done = 0
        self.has_failed = False
        self.failure = None

    def run(self):
        try:
            for number in range(self.requests):
                self.add(COUNTERS[(self.index + number) % len(COUNTERS)])
                if self.has_failed:
                    break
        except Exception as error:  # told by `failure`
            if not (self.killed.is_set() and isinstance(error, ConnectionError)):
                self.failure = f"connection {self.index}: {type(error).__name__}: {error}"
        finally:
            self.connection.close()

    def add(self, key):
        self.sent[key] += 1
        reply = self.connection.exchange(Dchm.request("merge", key, 1))
        if reply == FAILED:
            self.has_failed = True
            if self.connection.socket.recv(1):
                raise ValueError("a reply behind a refusal with 9")
            return
        self.replies[key].append(Dchm.number("merge", reply))
        self.done += 1


def values_of(port):
    connection = Connection(Dchm, port)
    values = {key: connection.ask("get", Dchm.request("get", key)) or 0 for key in COUNTERS}
    connection.close()
    return values


def faults_of(key, before, after, clients):
    """What is wrong with the number that a counter has after a restart; `before` is what it had before the clients.

    No reply's change is lost, none is made twice, and no number is told twice.
    """
    sent = sum(client.sent[key] for client in clients)
    told = [number for client in clients for number in client.replies[key]]
    wrong = {
        "a change was lost": after < before + len(told),
        "a number that was told is lost": after < max(told, default=before),
        "a change was made twice": after > before + sent,
        "two replies told the same number": len(told) > len(set(told)),
        "a number was told that was told before": min(told, default=before + 1) <= before,
    }
    return [f"{key.decode()}: {text}" for text, is_so in wrong.items() if is_so]
