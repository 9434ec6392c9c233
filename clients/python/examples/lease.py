"""A lease that one worker has at a time, with a fencing number, though servers and workers are killed: lease.py PORT WORKER

A lease is the text `NUMBER HOLDER EXPIRES`. Each new holder has a higher number. A holder may be late and not know that
its time is over; so what it writes has its number, and nothing of a lower number is written over a higher one. `holds
NUMBER HOLDER` and `wrote NUMBER COUNT` are printed.
"""
import time
import uuid

from workers import PAUSE_SECONDS, repeated, run, say

LEASE_SECONDS = 1.0
WRITES = 20


def acquire(server, name, holder, now):
    """The lease as its text, if the holder, which is a new name, has it now; else None."""
    old = repeated(lambda: server.get(f"lease:{name}"))
    number, _, expires = (old or "0 - 0").split(" ")
    if float(expires) > now:
        return None
    mine = f"{int(number) + 1} {holder} {now + LEASE_SECONDS}"
    if old is None:
        repeated(lambda: server.put_if_absent(f"lease:{name}", mine))
    else:
        repeated(lambda: server.replace_if(f"lease:{name}", old, mine))
    return mine if repeated(lambda: server.get(f"lease:{name}")) == mine else None


def release(server, name, mine):
    """Ends a lease before its time; the number stays, so that the next one is higher."""
    number, holder, _ = mine.split(" ")
    repeated(lambda: server.replace_if(f"lease:{name}", mine, f"{number} {holder} 0"))


def write(server, key, number, write_id):
    """Counts a text `NUMBER COUNT ID` up, unless a higher number was there; returns the count, or None."""
    while True:
        old = repeated(lambda: server.get(key))
        fence, count, last = (old or "0 0 -").split(" ")
        if last == write_id:
            return int(count)
        if int(fence) > number:
            return None
        new = f"{number} {int(count) + 1} {write_id}"
        if old is None:
            repeated(lambda: server.put_if_absent(key, new))
        else:
            repeated(lambda: server.replace_if(key, old, new))


def work(server, worker):
    texts, holder = server.texts(), f"{worker}-{uuid.uuid4().hex}"
    mine = acquire(texts, "printer", holder, time.time())
    if mine is None:
        time.sleep(PAUSE_SECONDS)
        return
    number = int(mine.split(" ")[0])
    say("holds", number, holder)
    for _ in range(WRITES):
        count = write(texts, "paper", number, uuid.uuid4().hex)
        if count is None:
            return
        say("wrote", number, count)
    release(texts, "printer", mine)


if __name__ == "__main__":
    run(work)
