"""At most so many requests of a user in each window, though servers and workers are killed: rate_limit.py PORT WORKER

`allowed`, `refused`, `open` or `away` is printed of each question, with its window.
"""
import functools
import time

import dchm
from index import Index
from workers import repeated, run, say

MOST = 5
WINDOW_SECONDS = 0.25
# A window is swept once no request of it can be under way any more.
LATER = 8


def windows(server):
    return Index(server, "windows", shards=8, most=200)


def users_of(server, window):
    return Index(server, f"users:{window}", shards=4, most=100)


class Limit:
    """One merge by SUM counts and tells. It isn't repeated: if its outcome is open, the request isn't allowed.

    The window and its user are noted before the first count, so that any sweeper finds what a worker that died has left.
    """

    def __init__(self, server):
        self.server, self.noted = server, set()

    def asks(self, user, window):
        """`allowed`, `refused`, `open`, or `away` if there is no server."""
        if (user, window) not in self.noted:
            windows(self.server.texts()).add(str(window))
            users_of(self.server.texts(), window).add(user)
            self.noted.add((user, window))
        try:
            return "allowed" if self.server.longs().merge(f"rate:{user}:{window}", dchm.SUM, 1) <= MOST else "refused"
        except dchm.NotMade:
            return "away"
        except dchm.OutcomeOpen:
            return "open"


def sweep(server, now_window):
    """Removes the counts of old windows. A removal may be repeated, since a window never comes back."""
    index = windows(server.texts())
    for window in [window for window in index.names() if int(window) + LATER < now_window]:
        users = users_of(server.texts(), window)
        for user in users.names():
            repeated(lambda: server.remove(f"rate:{user}:{window}"))
        users.remove()
        index.drop(window)


limit_of = functools.cache(Limit)


def work(server, worker):
    window = int(time.time() / WINDOW_SECONDS)
    say(limit_of(server).asks("ann", window), window)
    if worker.endswith("0"):
        sweep(server, window)
    time.sleep(WINDOW_SECONDS / 10)


if __name__ == "__main__":
    run(work)
