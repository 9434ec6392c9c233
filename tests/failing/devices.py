"""A device whose calls fail, or may be tried again, while a server has clients."""
import contextlib
import os
import resource
import time

from failing.rooms import CONNECTIONS, TO_THE_END, REQUESTS, SMALL, STRIPES, Fault, check, none_refused, room, work
from harness.counters import COUNTERS, FAILED, values_of
from harness.servers import Connection, Dchm, kill
from harness.suite import wait_until

# The most merges of a client that goes on until it is refused. A checkpoint begins at most ten times a second, and a call of
# each of two is to fail, while a fast disk syncs a batch in no time.
MOST_REQUESTS = 100_000
# The number of the call up to which each one is tried: behind the first checkpoint and the rotation before it.
LAST_CALL = 64
# How many writes and syncs of a file are tried: all that a checkpoint makes of its own, behind the sync of opening.
FILE_CALLS = {"write": 8, "sync": 4}


def is_refused(port):
    """Whether a call of a new connection is refused with 9, and the connection ends."""
    with contextlib.closing(Connection(Dchm, port)) as connection:
        reply = connection.exchange(Dchm.request("get", COUNTERS[0]))
        return reply == FAILED and not connection.socket.recv(1)


# The threads that stay beside the workers: the first one, two for the whole map, the one that watches the device, and the one
# that writes the records.
OTHER_THREADS = 5


def threads_of(child):
    """How many threads the process has: at first two loops beside those that stay."""
    return len(os.listdir(f"/proc/{child.pid}/task"))


def rests(child):
    """Whether the process is there and takes next to no time of a processor, within a bounded number of looks."""
    def used():
        with open(f"/proc/{child.pid}/stat", encoding="utf-8") as stat:
            return sum(map(int, stat.read().rpartition(")")[2].split()[11:13]))

    def is_still():
        before = used()
        time.sleep(0.05)
        return used() - before <= 1

    return child.poll() is None and wait_until(is_still)


def work_until_failed(here, fault=None, words=SMALL, limits=()):
    """The clients of a server that goes on until a call of its device fails, which each of them is told."""
    with here.served(fault, words, limits) as (child, port):
        clients = work(port, MOST_REQUESTS)
        unrefused = [client.index for client in clients if not client.has_failed]
        check(not unrefused, f"clients that weren't refused: {unrefused}")
        later = [is_refused(port) for _ in range(3)]
        check(all(later), f"whether later calls were refused with 9: {later}")
        check(wait_until(lambda: threads_of(child) <= CONNECTIONS + OTHER_THREADS),
              f"a loop goes on: {threads_of(child)} threads, not {CONNECTIONS + OTHER_THREADS}")
        check(rests(child), f"the process goes on working, or has ended with {child.poll()}")
        kill(child)
    check(here.told() == 1, f"{here.told()} records say that the store has failed")
    return clients


def a_failure(fault):
    """A device call that fails ends the store, which writes nothing more, and no released reply is lost."""
    with room() as here:
        here.init()
        clients = work_until_failed(here, fault)
        counts = here.page.counts()
        check(counts.faults > 0, "no call went wrong")
        check(counts.after == 0, f"{counts.after} syncs or writes behind the failure")
        here.keeps(clients)
        return counts.file.rstrip(b"\0").decode()


def a_trouble(fault):
    """What may be tried again is, and no call is refused."""
    with room() as here:
        here.init()
        with here.served(fault) as (child, port):
            clients = work(port, REQUESTS)
            none_refused(clients)
            values = values_of(port)
            check(sum(values.values()) == CONNECTIONS * REQUESTS, f"the counters have {values}")
            check(here.page.counts().faults > 0, "no call went wrong")
            kill(child)
        here.keeps(clients)


def a_full_disk_by_a_limit():
    """A file that can't grow is a failed device; with room again each released reply is there."""
    with room() as here:
        here.init()
        clients = work_until_failed(here, words=STRIPES, limits=[(resource.RLIMIT_FSIZE, 4096)])
        here.keeps(clients)


def a_start_on_a_full_disk():
    """On a full disk a server starts and reads; the first change is refused, and with room again all is there."""
    with room() as here:
        here.init()
        with here.served() as (child, port):
            clients = work(port, REQUESTS)
            kill(child)
        files = here.files()
        # No checkpoint begins, so that the first write is that of the first change.
        with here.served(Fault("write", "ENOSPC", last=TO_THE_END), STRIPES) as (child, port):
            total = sum(values_of(port).values())
            check(total == CONNECTIONS * REQUESTS, f"the counters have {total} of {CONNECTIONS * REQUESTS}")
            clients += work(port, 1)
            made = [client.index for client in clients[CONNECTIONS:] if not client.has_failed]
            check(not made, f"clients whose change wasn't refused: {made}")
            check(is_refused(port), "a later call wasn't refused with 9")
            kill(child)
        after = here.files()
        changed = [name for name in {**files, **after} if files.get(name) != after.get(name)]
        check(not changed, f"a full disk was written: {changed}")
        here.keeps(clients)


def failures(is_all):
    """Device calls that fail. The short form tries each call up to some number in one way, and some in each other way.

    Calls up to 5 of all syncs are those of opening, the first of each file's.
    """
    for place, call in enumerate(("write", "sync")):
        first = 1 if call == "write" else 6
        for shift, how in enumerate(("EIO", "torn", "ENOSPC")):
            stride = 1 if is_all else 2 if how == "EIO" else 8
            last = TO_THE_END if how == "ENOSPC" else 0
            for number in range(first + (shift + place) % stride, LAST_CALL + 1, stride):
                yield Fault(call, how, first=number, last=last)
        for name in ("ckpt-a", "ckpt-b", "log-b"):
            for number in range(1 if call == "write" else 2, FILE_CALLS[call] + 1):
                yield Fault(call, "EIO" if number % 2 or is_all else "torn", name, number)


def troubles(is_all):
    for how, calls in (("EINTR", ("write", "sync")), ("short", ("write",))):
        for call in calls:
            for number in range(1, LAST_CALL // 2, 1 if is_all else 9):
                yield Fault(call, how, first=number if call == "write" else number + 5)
    # Each call twice: what is tried again is the second one.
    yield Fault("write", "short", last=TO_THE_END)


def device_cases(is_all):
    for fault in failures(is_all):
        yield f"failing: {fault}", lambda fault=fault: a_failure(fault)
    for fault in troubles(is_all):
        yield f"tried again: {fault}", lambda fault=fault: a_trouble(fault)
    yield "full: a start on a full disk", a_start_on_a_full_disk
