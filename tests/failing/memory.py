"""Servers whose memory is refused while they have clients."""
import contextlib
import itertools
import threading

from failing.openings import opening_with_refused_memory
from failing.rooms import CONNECTIONS, SMALL, STRIPES, Fault, are_kept, check, room
from harness.counters import COUNTERS, NO_MEMORY, values_of
from harness.servers import Connection, Dchm, kill

# How many calls of a client are made while memory is refused.
REQUESTS = 120
# One allocation in n is refused.
RATES = (50, 5)


class Sparing(threading.Thread):
    """One connection's calls while memory is refused: merges of shared counters, and puts and gets of its own keys.

    `own` has what each of its keys may have: two values if the server ended the connection of a put without a reply. A
    call that is refused with 7 changed nothing.
    """

    def __init__(self, index, port):
        super().__init__(daemon=True)
        self.index, self.port = index, port
        self.connection = Connection(Dchm, port)
        self.sent = {key: 0 for key in COUNTERS}
        self.replies = {key: [] for key in COUNTERS}
        self.own = {}
        self.done = self.refused = self.ended = 0
        self.failure = None

    def run(self):
        try:
            for number in range(REQUESTS):
                self.one_of(number)
                if number % 8 == 7:
                    self.connect_again()
        except Exception as error:  # told by `failure`
            self.failure = f"connection {self.index}: {type(error).__name__}: {error}"
        finally:
            self.connection.close()

    def one_of(self, number):
        key = b"own %d %d" % (self.index, number // 4)
        if number % 4 < 2:
            self.merge(COUNTERS[(self.index + number // 2) % len(COUNTERS)])
        elif number % 4 == 2:
            self.put(key, number)
            self.put(key, -number)
        else:
            self.get(key)

    def ask(self, kind, key, number=None):
        """The number of the reply in brackets; NO_MEMORY, or nothing if the connection ended without one."""
        try:
            reply = self.connection.exchange(Dchm.request(kind, key, number))
        except ConnectionError:
            self.ended += 1
            self.connect_again()
            return None
        if reply == NO_MEMORY:
            self.refused += 1
            return reply
        self.done += 1
        return [Dchm.number(kind, reply)]

    def connect_again(self):
        self.connection.close()
        self.connection = Connection(Dchm, self.port)

    def merge(self, key):
        reply = self.ask("merge", key, 1)
        self.sent[key] += reply != NO_MEMORY
        if isinstance(reply, list):
            self.replies[key] += reply

    def put(self, key, number):
        reply = self.ask("put", key, number)
        may_be = self.own.setdefault(key, {None})
        if reply is None:
            may_be.add(number)
        elif reply != NO_MEMORY:
            check(reply[0] in may_be, f"{key}: was {reply[0]}, and it may be {may_be}")
            self.own[key] = {number}

    def get(self, key):
        reply = self.ask("get", key)
        if isinstance(reply, list):
            may_be = self.own[key]
            check(reply[0] in may_be, f"{key}: now {reply[0]}, and it may be {may_be}")
            self.own[key] = {reply[0]}


def work_sparingly(here, child, port):
    """The clients of a server whose memory is refused once each of them is served."""
    clients = [Sparing(index, port) for index in range(CONNECTIONS)]
    for client in clients:
        check(client.ask("get", COUNTERS[0]) is not None, "a connection ended")
    here.page.refuse_memory()
    for client in clients:
        client.start()
    for client in clients:
        client.join()
    wrong = [client.failure for client in clients if client.failure]
    check(not wrong, "; ".join(wrong))
    check(child.poll() is None, f"the process has ended with {child.returncode}")
    return clients


def refused_memory(one_in, seed, words):
    """Each reply is right or is refused with 7, the process stays, and after a kill each released reply is there."""
    with room() as here:
        here.init()
        with here.served(Fault(one_in=one_in, seed=seed), words) as (child, port):
            clients = work_sparingly(here, child, port)
            counts = here.page.counts()
            kill(child)
        check(counts.refused > 0, "no allocation was refused")
        with here.served(words=words) as (child, port):
            after = values_of(port)
            with contextlib.closing(Connection(Dchm, port)) as connection:
                own = {key: connection.ask("get", Dchm.request("get", key)) for client in clients for key in client.own}
            kill(child)
    are_kept(dict.fromkeys(COUNTERS, 0), after, clients)
    lost = [key for client in clients for key, may_be in client.own.items() if own[key] not in may_be]
    check(not lost, "values that can't be: " + ", ".join(f"{key} has {own[key]}" for key in lost))
    total = {name: sum(getattr(client, name) for client in clients) for name in ("done", "refused", "ended")}
    return (f"{counts.refused} of {counts.asked} allocations refused: {total['done']} replies, "
            f"{total['refused']} refused with 7, {total['ended']} connections ended")


def memory_cases(seed, is_all):
    for one_in, small, number in itertools.product(RATES, (False, True), range(10 if is_all else 1)):
        name = f"memory: one in {one_in}{' with a small log' if small else ''}, seed {seed + number}"
        words = SMALL if small else STRIPES
        yield name, lambda one_in=one_in, number=number, words=words: refused_memory(one_in, seed + number, words)
    yield "memory: opening", lambda: opening_with_refused_memory(seed)
