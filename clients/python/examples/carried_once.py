"""Requests that are carried out once, though they come often, and servers and workers are killed: carried_once.py PORT WORKER

A worker claims a request under its name and the time. If it dies, another takes the claim over after PATIENCE_SECONDS. Then
the work may be begun twice, so it is done under the request's name: here as a key of the map, elsewhere as the idempotency
key of a payment. `carried N` and `took N` are printed of each work that is begun and each claim that is taken over, and
`told N RESULT` once a result is known.
"""
import itertools
import time
import uuid

from workers import PAUSE_SECONDS, repeated, run, say

# Longer than any work takes.
PATIENCE_SECONDS = 1.0
REQUESTS = itertools.count()


def once(server, name, worker, work):
    """The result of work() for this request, of this call or another; None while another worker is at it.

    Nobody else ever writes this claim, so each change from or to it may be repeated.
    """
    key, claim = f"request:{name}", f"claim {worker} {uuid.uuid4().hex} {time.time()}"
    holder = repeated(lambda: server.put_if_absent(key, claim))
    if holder not in (None, claim) and not holder.startswith("done "):
        if time.time() < float(holder.split()[-1]) + PATIENCE_SECONDS:
            return None
        repeated(lambda: server.replace_if(key, holder, claim))
        holder = repeated(lambda: server.get(key))
        if holder == claim:
            say("took", name)
    if holder in (None, claim):
        result = work()
        repeated(lambda: server.replace_if(key, claim, "done " + result))
        holder = repeated(lambda: server.get(key))  # the result of another, if that one took the claim over
    return holder[len("done "):] if holder.startswith("done ") else None


def charge(server, number, worker):
    """Work that has one effect, however often it is done: the first charge under the request's name stands."""
    say("carried", number)
    charged = f"by-{worker}-{uuid.uuid4().hex}"
    return repeated(lambda: server.put_if_absent(f"charge:{number}", charged)) or charged


def work(server, worker):
    number = next(REQUESTS)
    while (result := once(server.texts(), str(number), worker, lambda: charge(server.texts(), number, worker))) is None:
        time.sleep(PAUSE_SECONDS)
    say("told", number, result)


if __name__ == "__main__":
    run(work)
