#!/usr/bin/env python3
"""Plays the recipes of src/examples beside kills of the server and of their own workers.

    PYTHONPATH=tests clients/java/test_recipes.py [PROGRAM]

tests/clients runs them, once clients/java/build has made the examples. Of each recipe a few workers run as processes; the
server and the workers are killed by SIGKILL and started again, in turn. At the end what the workers told is compared with
what the map has. Waiting is bounded in turns. The last line is `N passed, M failed`.
"""
import collections
import os
import subprocess
import sys
import time
import unittest

from harness import kills, suite
from harness.kills import kills_of, of_kind
from harness.places import JAVA

PROGRAM = os.path.realpath(suite.named_program())
KILLS = ("server", "w0", "server", "w1", "w2", "server")


def java(recipe, *words):
    path = os.pathsep.join(os.path.join(JAVA, "out", name) for name in ("examples", "main"))
    return ["java", "-XX:TieredStopAtLevel=1", "-XX:+UseSerialGC", "-Xshare:auto", "-cp", path, "examples." + recipe, *words]


def beside_kills(recipe):
    """The workers of a recipe after all kills, and the server, which still runs."""
    return kills.beside_kills(PROGRAM, lambda port, name: java(recipe, port, name), KILLS)


class Recipes(unittest.TestCase):
    def test_requests_are_carried_out_once_and_none_is_stranded(self):
        with beside_kills("CarriedOnce") as (workers, server):
            told = of_kind(workers, "told")
            for kind, before in (("charge", "t"), ("request", "tdone ")):
                found = server.values([f"{kind}:{number}" for number, _ in told])
                self.assertEqual(found, {f"{kind}:{number}": before + result for number, result in told})
            carried = collections.Counter(number for number, in of_kind(workers, "carried"))
            took = collections.Counter(number for number, in of_kind(workers, "took"))
            self.assertFalse({number for number, times in carried.items() if times > 1 + took[number]}, "carried out twice")
            # Each life of a worker went through all requests from the first one on.
            numbers = {int(number) for number, _ in told}
            self.assertEqual(numbers, set(range(len(numbers))))
            self.assertGreater(len(numbers), 20)

    def test_sessions(self):
        with beside_kills("Sessions") as (workers, server):
            known = sorted({name for kind in ("in", "out", "dropped") for name, in of_kind(workers, kind)})
            gone = {name for kind in ("out", "dropped") for name, in of_kind(workers, kind)}
            values = server.values([f"session:{name}" for name in known])
            alive = {name for name in known if values[f"session:{name}"] != "_"}
            self.assertFalse(alive & gone, "ended, and still there")
            self.assertGreater(len(alive), 10)
            self.assertFalse(alive - self.swept(server, time.time(), "alive"), "there, and in no index")
            self.assertFalse(self.swept(server, time.time() + 3 * 3600, "alive"), "not swept")
            left = server.values([f"session:{name}" for name in known])
            self.assertEqual(set(left.values()), {"_"})
            # What stays are the shards of the indexes.
            self.assertLessEqual(server.count(), 4 * 4 + 8)

    @staticmethod
    def swept(server, moment, kind):
        """The sessions of one kind after a sweep as if it were that moment."""
        ended = subprocess.run(java("Sessions", str(server.port), "sweeper", str(moment)), stdout=subprocess.PIPE, check=True, text=True)
        return {line.split()[1] for line in ended.stdout.splitlines() if line.startswith(kind)}

    def test_stock(self):
        with beside_kills("Stock") as (workers, server):
            for item in ("apples", "pears"):
                _, left, reserved = server.values([f"stock:{item}"])[f"stock:{item}"].split(";")
                orders = dict(each.split("=") for each in reserved.split(",") if each)
                held = sum(int(order.split("@")[0]) for order in orders.values())
                sold = {order: int(quantity) for at, order, quantity in of_kind(workers, "sold") if at == item}
                released = [order for at, order, _ in of_kind(workers, "released") if at == item]
                self.assertEqual(set(server.values([f"order:{order}" for order in sold]).values()), {"tsold"})
                self.assertLessEqual(set(server.values([f"order:{order}" for order in released]).values()), {"treleased"})
                # A worker that was killed may have sold one order of at most 3 without a word, or left it reserved.
                self.assertIn(2000 - int(left) - held - sum(sold.values()), range(3 * kills_of(workers) + 1), item)
                self.assertLessEqual(len(orders), kills_of(workers), "reservations that nobody releases")

    def test_rate_limit(self):
        with beside_kills("RateLimit") as (workers, server):
            told = {kind: collections.Counter(window for window, in of_kind(workers, kind))
                    for kind in ("allowed", "refused", "open", "away")}
            self.assertLessEqual(max(told["allowed"].values()), 5)
            for window in told["refused"]:
                self.assertGreaterEqual(told["allowed"][window] + told["open"][window] + kills_of(workers), 5, window)
            windows = sorted({window for kind in told.values() for window in kind})
            subprocess.run(java("RateLimit", str(server.port), "sweeper", str(time.time() + 3600)), check=True)
            found = server.values([f"rate:ann:{window}" for window in windows])
            self.assertEqual([key for key, value in found.items() if value != "_"], [], "old windows stay")
            # What stays are the shards of the index of windows.
            self.assertLessEqual(server.count(), 8, "windows that no sweeper finds")

    def test_counters(self):
        with beside_kills("Counts") as (workers, server):
            for worker in workers:
                told = [int(number) for _, number in worker.lines]
                found = int(server.values([f"count:hits:{worker.name}"])[f"count:hits:{worker.name}"].removeprefix("i"))
                self.assertEqual(told, sorted(set(told)), "a number is told twice")
                self.assertTrue(len(told) <= found <= len(told) + worker.kills, f"{found} stored, {len(told)} told")

    def test_lease(self):
        with beside_kills("Lease") as (workers, server):
            holders = of_kind(workers, "holds")
            self.assertEqual(len({number for number, _ in holders}), len(holders), "two have the same number")
            wrote = sorted((int(count), int(number)) for number, count in of_kind(workers, "wrote"))
            self.assertEqual(len({count for count, _ in wrote}), len(wrote), "two writes have the same count")
            numbers = [number for _, number in wrote]
            self.assertEqual(numbers, sorted(numbers), "a lower number writes over a higher one")
            count = int(server.values(["paper"])["paper"].split(" ")[1])
            self.assertIn(count - len(wrote), range(kills_of(workers) + len(holders) + 1))


if __name__ == "__main__":
    sys.exit(suite.run_tests())
