"""Servers of one directory, each of which is killed at a random moment."""
import collections
import random
import threading
import time

from failing.rooms import CONNECTIONS, REQUESTS, SMALL, are_kept, check, none_refused, room
from harness.counters import COUNTERS, Client, values_of
from harness.files import GATE
from harness.servers import free_port, kill, process

# How many times a server is killed in one directory.
LIVES = 10


class Kills:
    """What was seen of the servers that were killed."""

    def __init__(self):
        self.lock = threading.Lock()
        self.seen = collections.Counter()

    def add(self, **numbers):
        with self.lock:
            self.seen.update(numbers)

    def __str__(self):
        return ", ".join(f"{number} {name.replace('_', ' ')}" for name, number in self.seen.items())


KILLS = Kills()


def kill_at_random(chance, child, port):
    """Kills the server at a random moment of its clients' work; returns the clients."""
    killed = threading.Event()
    clients = [Client(index, port, REQUESTS, killed) for index in range(CONNECTIONS)]
    for client in clients:
        client.start()
    replies = chance.randrange(CONNECTIONS * REQUESTS)
    while sum(client.done for client in clients) < replies and any(client.is_alive() for client in clients):
        time.sleep(0.0005)
    time.sleep(chance.random() * 0.003)
    killed.set()
    kill(child)
    for client in clients:
        client.join()
    wrong = [client.failure for client in clients if client.failure]
    check(not wrong, "; ".join(wrong))
    none_refused(clients)
    return clients


def is_within_a_checkpoint(files):
    """Whether one of two checkpoints isn't sealed: its gate, the first byte, isn't A5."""
    return any(files[name] and not files[name].startswith(GATE) for name in ("ckpt-a", "ckpt-b"))


def kill_while_it_opens(chance, here):
    """Kills a server at a random moment of its opening."""
    line = [here.program, "serve", here.directory, "--port", str(free_port()), *SMALL]
    with process(line, here.directory + ".errors") as child:
        time.sleep(chance.random() * 0.03)
        kill(child)
    KILLS.add(kills=1, while_it_opens=1)


def count_life(clients, before, after, files):
    sent = sum(sum(client.sent.values()) for client in clients)
    told = sum(client.done for client in clients)
    made = sum(after.values()) - sum(before.values())
    KILLS.add(kills=1, within_a_checkpoint=int(is_within_a_checkpoint(files)), released_replies=told,
              changes_without_a_reply=sent - told, of_these_made=made - told)


def lives(seed, count):
    """A server of one directory is killed `count` times, and each life begins with what the one before released."""
    chance = random.Random(seed)
    with room() as here:
        here.init()
        before, clients, files = dict.fromkeys(COUNTERS, 0), [], None
        for number in range(count + 1):
            if clients and number < count and chance.random() < 0.1:
                kill_while_it_opens(chance, here)
            prefix = here.prefix()
            with here.served(words=SMALL) as (child, port):
                after = values_of(port)
                are_kept(before, after, clients)
                check(sum(after.values()) == prefix, f"the counters have {after}, and {prefix} changes were made")
                if number:
                    count_life(clients, before, after, files)
                if number == count:
                    kill(child)
                    return
                before, clients = after, kill_at_random(chance, child, port)
            files = here.files()
