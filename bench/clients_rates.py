"""How many calls a second the client for Python makes: clients_rates.py PORT SECONDS ROW.. `ROW RATE` is printed of each.

A row is `get` or `put`, and how: alone one call after the other, `put:pipeline` in pipelines of 256, `put:tasks` by 256
tasks of asyncio.
"""
import asyncio
import random
import sys
import time

import dchm
import dchm.aio

KEYS = [f"key{number:07d}" for number in range(1000)]
AHEAD = 256


def one_by_one(port, kind, until):
    done = 0
    with dchm.connect(port) as server:
        while time.monotonic() < until:
            for _ in range(100):
                server.get(random.choice(KEYS)) if kind == "get" else server.put(random.choice(KEYS), 5)
            done += 100
    return done


def in_pipelines(port, kind, until):
    done = 0
    with dchm.connect(port) as server:
        while time.monotonic() < until:
            with server.pipeline() as calls:
                for _ in range(AHEAD):
                    calls.get(random.choice(KEYS)) if kind == "get" else calls.put(random.choice(KEYS), 5)
            done += len(calls.replies)
    return done


async def by_tasks(port, kind, until):
    done = 0
    async with await dchm.aio.connect(port) as server:
        async def task():
            nonlocal done
            while time.monotonic() < until:
                await (server.get(random.choice(KEYS)) if kind == "get" else server.put(random.choice(KEYS), 5))
                done += 1
        await asyncio.gather(*(task() for _ in range(AHEAD)))
    return done


def main():
    port, seconds = int(sys.argv[1]), float(sys.argv[2])
    for row in sys.argv[3:]:
        kind, _, way = row.partition(":")
        begin = time.monotonic()
        if way == "tasks":
            done = asyncio.run(by_tasks(port, kind, begin + seconds))
        else:
            done = (in_pipelines if way == "pipeline" else one_by_one)(port, kind, begin + seconds)
        print(row, round(done / (time.monotonic() - begin)), flush=True)


if __name__ == "__main__":
    main()
