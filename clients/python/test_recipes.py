#!/usr/bin/env python3
"""Plays the recipes, examples/*.py, beside kills of the server and of their own workers.

    PYTHONPATH=tests clients/python/test_recipes.py [PROGRAM]

tests/clients runs them. Of each recipe a few workers run as processes; the server and the workers are killed by SIGKILL and
started again, in turn; at the end what the workers told is compared with what the map has. Waiting is bounded in turns. The
last line is `N passed, M failed`.
"""
import collections
import contextlib
import os
import sys
import time
import unittest

import dchm
from harness import kills, suite
from harness.kills import NAMES, kills_of, of_kind
from harness.places import PYTHON
from support import PATIENT, PROGRAM, real

EXAMPLES = os.path.join(PYTHON, "examples")
sys.path.insert(0, EXAMPLES)
import carried_once  # noqa: E402
import counters  # noqa: E402
import lease  # noqa: E402
import rate_limit  # noqa: E402
import sessions  # noqa: E402
import stock  # noqa: E402

KILLS = ("server", "w0", "w1", "server", "w2", "w0", "server", "w1")


@contextlib.contextmanager
def beside_kills(recipe):
    """The workers of a recipe after all kills, and a client of the server, which still runs."""
    def words(port, name):
        return ["env", "PYTHONPATH=" + PYTHON, sys.executable, "-B", os.path.join(EXAMPLES, recipe), port, name]
    with kills.beside_kills(PROGRAM, words, KILLS) as (workers, server), dchm.connect(server.port, **PATIENT) as client:
        yield workers, client


class Recipes(unittest.TestCase):
    def test_requests_are_carried_out_once_and_none_is_stranded(self):
        with beside_kills("carried_once.py") as (workers, client):
            texts, told = client.texts(), of_kind(workers, "told")
            for number, result in told:
                self.assertEqual(texts.get(f"charge:{number}"), result, number)
                self.assertEqual(texts.get(f"request:{number}"), "done " + result, number)
            carried = collections.Counter(number for number, in of_kind(workers, "carried"))
            took = collections.Counter(number for number, in of_kind(workers, "took"))
            twice = {number: times for number, times in carried.items() if times > 1 + took[number]}
            self.assertFalse(twice, "carried out twice, and taken over by nobody")
            # Each life of a worker went through all requests from the first one on.
            numbers = {int(number) for number, _ in told}
            self.assertEqual(numbers, set(range(len(numbers))))
            self.assertGreater(len(numbers), 20)

    def test_a_claim_of_a_worker_that_died_is_taken_over(self):
        with real() as port, dchm.connect(port, **PATIENT) as client:
            texts = client.texts()
            texts.put("request:1", f"claim w9 x {time.time() - 10 * carried_once.PATIENCE_SECONDS}")
            texts.put("request:2", f"claim w9 x {time.time() + 1000}")
            with contextlib.redirect_stdout(open(os.devnull, "w", encoding="utf-8")):
                self.assertEqual(carried_once.once(texts, "1", "w0", lambda: "made"), "made")
                self.assertIsNone(carried_once.once(texts, "2", "w0", lambda: "made"))
            self.assertEqual(texts.get("request:1"), "done made")

    def test_sessions(self):
        with beside_kills("sessions.py") as (workers, client):
            texts, now = client.texts(), time.time()
            known = {name for kind in ("in", "out", "dropped") for name, in of_kind(workers, kind)}
            gone = {name for kind in ("out", "dropped") for name, in of_kind(workers, kind)}
            alive = {name for name in known if sessions.is_alive(texts, name, now)}
            self.assertFalse(alive & gone, "ended, and still there")
            indexed = {name for user in range(sessions.USERS) for name in sessions.index_of_user(texts, f"user{user}").names()}
            self.assertFalse(alive - indexed, "there, and in no index")
            self.assertGreater(len(alive), 10)
            sessions.sweep(texts, now + 3 * sessions.LIFE_SECONDS)
            self.assertFalse([name for name in known if sessions.is_alive(texts, name, now)], "not swept")
            for user in range(sessions.USERS):
                self.assertEqual(sessions.index_of_user(texts, f"user{user}").names(), [])
            self.assertLessEqual(client.count(), 4 * sessions.USERS + 8)

    def test_no_user_is_locked_out(self):
        with real() as port, dchm.connect(port, **PATIENT) as client, \
                contextlib.redirect_stdout(open(os.devnull, "w", encoding="utf-8")):
            texts = client.texts()
            names = [sessions.log_in(texts, "ann") for _ in range(150)]
            alive = [name for name in names if sessions.is_alive(texts, name, time.time())]
            self.assertTrue(20 <= len(alive) <= 64 and names[-1] in alive, len(alive))
            self.assertEqual(sorted(alive), sorted(sessions.index_of_user(texts, "ann").names()))
            self.assertEqual(sorted(sessions.log_out(texts, "ann")), sorted(alive))
            sessions.sweep(texts, time.time() + 3 * sessions.LIFE_SECONDS)
            self.assertLessEqual(client.count(), 4 + 8)

    def test_stock(self):
        with beside_kills("stock.py") as (workers, client):
            texts = client.texts()
            for item in stock.ITEMS:
                stock.release_old(texts, item, time.time() + 2 * stock.PATIENCE_SECONDS)
                _, left, orders = stock.read(texts, item)
                self.assertFalse(orders, "reservations that nobody releases")
                sold = {order: int(quantity) for at, order, quantity in of_kind(workers, "sold") if at == item}
                released = [order for at, order, _ in of_kind(workers, "released") if at == item]
                self.assertEqual({texts.get(f"order:{order}") for order in sold}, {"sold"})
                self.assertEqual({texts.get(f"order:{order}") for order in released}, {"released"})
                missing = stock.BEGIN - left - sum(sold.values())
                # A worker that was killed may have sold one order of at most 3 without a word.
                self.assertIn(missing, range(3 * kills_of(workers) + 1), item)

    def test_rate_limit(self):
        with beside_kills("rate_limit.py") as (workers, client):
            told = {kind: collections.Counter(window for window, in of_kind(workers, kind))
                    for kind in ("allowed", "refused", "open", "away")}
            self.assertLessEqual(max(told["allowed"].values()), rate_limit.MOST)
            for window in told["refused"]:
                self.assertGreaterEqual(told["allowed"][window] + told["open"][window] + kills_of(workers), rate_limit.MOST, window)
            windows = {window for kind in told.values() for window in kind}
            # The worker that sweeps has done so after its last line.
            last = max(int(line[1]) for line in workers[0].lines)
            old = [window for window in windows if int(window) + rate_limit.LATER < last]
            self.assertEqual([window for window in old if client.contains(f"rate:ann:{window}")], [], "old windows stay")
            rate_limit.sweep(client, max(map(int, windows)) + 100)
            self.assertLessEqual(client.count(), 8, "windows that no sweeper finds")

    def test_counters(self):
        with beside_kills("counters.py") as (workers, client):
            for worker in workers:
                told = [int(number) for kind, number in worker.lines]
                found = client.longs().get(f"count:hits:{worker.name}")
                self.assertEqual(told, sorted(set(told)), "a number is told twice")
                self.assertTrue(len(told) <= found <= len(told) + worker.kills, f"{found} stored, {len(told)} told")
            self.assertEqual(counters.total(client, "hits", NAMES), client.reduce(dchm.SUM))

    def test_lease(self):
        with beside_kills("lease.py") as (workers, client):
            holders = of_kind(workers, "holds")
            self.assertEqual(len({number for number, _ in holders}), len(holders), "two have the same number")
            wrote = sorted((int(count), int(number)) for number, count in of_kind(workers, "wrote"))
            self.assertEqual(len({count for count, _ in wrote}), len(wrote), "two writes have the same count")
            numbers = [number for _, number in wrote]
            self.assertEqual(numbers, sorted(numbers), "a lower number writes over a higher one")
            _, count, _ = client.texts().get("paper").split(" ")
            self.assertIn(int(count) - len(wrote), range(kills_of(workers) + len(holders) + 1))
            self.assertIsNone(lease.write(client.texts(), "paper", 0, "late"))


if __name__ == "__main__":
    sys.exit(suite.run_tests())
