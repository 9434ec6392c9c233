"""A count that is exact, though servers and workers are killed: counters.py PORT WORKER

Each worker has a key of its own, which it alone changes from n to n + 1; the count is their sum. `added N` is printed.
"""
from workers import repeated, run, say


def add(server, counter, worker):
    """Adds 1 to the worker's own key; returns what it is then. No number comes back, so the change may be repeated."""
    key = f"count:{counter}:{worker}"
    before = repeated(lambda: server.get(key))
    if before is None:
        repeated(lambda: server.put_if_absent(key, 1))
        return 1
    repeated(lambda: server.replace_if(key, before, before + 1))
    return before + 1


def total(server, counter, workers):
    return sum(repeated(lambda: server.get(f"count:{counter}:{worker}")) or 0 for worker in workers)


def work(server, worker):
    say("added", add(server.longs(), "hits", worker))


if __name__ == "__main__":
    run(work)
