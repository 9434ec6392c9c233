#!/usr/bin/env python3
"""Tests of the client for asyncio: deadlines, cancelled calls, its end, other loops, and peers that are no servers.

    PYTHONPATH=tests clients/python/test_aio_deadlines.py [PROGRAM]

tests/clients runs them. A call that has to end by its deadline of SHORT seconds has many times that for slow machines.
The last line is `N passed, M failed`.
"""
import asyncio
import contextlib
import signal
import sys
import time
import unittest
from unittest import mock

import dchm
import dchm.aio
from harness import servers, suite
from harness.suite import TURN_SECONDS
from support import (LONG, MOST_TURNS, PATIENT, SHORT, READY, Peer, deaf, get_frame, put_frame, real_process, replying,
                     Proxy, silent, stand_in, sum_frame)

# Far more than a deadline of SHORT, and far less than what the client would wait for otherwise.
SOON = 60
HASTY = {"timeout": SHORT, "connect_timeout": LONG, "idle": LONG}
TASKS = 50


async def until(holds):
    """Waits until it holds, within a bounded number of looks."""
    for _ in range(MOST_TURNS):
        if holds():
            return
        await asyncio.sleep(TURN_SECONDS)
    raise AssertionError("it never holds")


async def together(calls):
    return await asyncio.gather(*calls, return_exceptions=True)


async def outcome_of(task):
    """What is true of the call of a task that was cancelled."""
    try:
        await task
    except asyncio.CancelledError as error:
        return dchm.outcome(error)
    raise AssertionError("it wasn't cancelled")


class Aio(unittest.IsolatedAsyncioTestCase):
    async def asyncSetUp(self):
        # In debug mode a loop warns of each slow turn, and no warning is to come.
        asyncio.get_running_loop().set_debug(False)

    @contextlib.contextmanager
    def soon(self):
        begin = time.monotonic()
        with self.assertNoLogs("asyncio", "WARNING"):
            yield
        self.assertLess(time.monotonic() - begin, SOON, "it takes longer than its deadline")

    def kinds(self, found):
        return {type(each) for each in found}

    async def test_a_stopped_server(self):
        with real_process() as (child, port):
            async with await dchm.aio.connect(port, **HASTY) as s:
                await s.merge("a", dchm.SUM, 1)
                servers.stop(child)
                try:
                    with self.soon():
                        found = await together(s.merge("a", dchm.SUM, 1) for _ in range(TASKS))
                        self.assertEqual(self.kinds(found), {dchm.OutcomeOpen})
                        with self.assertRaises(dchm.NotMade):
                            await dchm.aio.connect(port, connect_timeout=SHORT)
                finally:
                    child.send_signal(signal.SIGCONT)
                self.assertIn(await s.merge("a", dchm.SUM, 1), range(2, TASKS + 3))

    async def test_what_was_never_sent_is_not_made(self):
        with Peer(deaf) as peer:
            async with await dchm.aio.connect(peer.port, in_flight=10_000, **HASTY) as s:
                with self.soon():
                    found = await together(s.put(f"k{number}", "x" * 4096) for number in range(4000))
                self.assertEqual(self.kinds(found), {dchm.OutcomeOpen, dchm.NotMade})

    async def test_a_server_that_went_away(self):
        with real_process() as (child, port):
            async with await dchm.aio.connect(port, **PATIENT) as s:
                await s.put("a", 1)
                servers.kill(child)
                with self.soon():
                    found = await together(s.put(f"k{number}", 1) for number in range(TASKS))
                    self.assertEqual(self.kinds(found), {dchm.NotMade})

    async def test_tasks_share_one_attempt_to_connect(self):
        def refuses(peer, client):
            if len(peer.sockets) > 1:
                client.close()
                return
            peer.frame(client)
            client.sendall(READY)
            peer.frame(client)
            client.close()
        with Peer(refuses) as peer:
            async with await dchm.aio.connect(peer.port, **PATIENT) as s:
                await together([s.get("a")])
                connections = len(peer.sockets)
                with self.soon():
                    found = await together(s.put(f"k{number}", 1) for number in range(TASKS))
                self.assertEqual(self.kinds(found), {dchm.NotMade})
                self.assertIn("--connections", str(found[0]))
                self.assertEqual(len(peer.sockets), connections + 1)

    async def test_a_server_that_does_not_serve_the_connection(self):
        with Peer(lambda peer, client: peer.frame(client) and peer.frame(client)) as peer, self.soon():
            with self.assertRaises(dchm.NotMade) as caught:
                await dchm.aio.connect(peer.port, connect_timeout=SHORT)
            self.assertIn(f"within {SHORT} s", str(caught.exception))

    async def test_cancelled_calls_keep_their_places(self):
        with Peer(silent) as peer:
            async with await dchm.aio.connect(peer.port, in_flight=4, **PATIENT) as s:
                for turn in range(3):
                    tasks = [asyncio.create_task(s.merge(f"k{number}", dchm.SUM, 1)) for number in range(20)]
                    await until(lambda: len(peer.got) >= 5)
                    for task in tasks:
                        task.cancel()
                    told = [await outcome_of(task) for task in tasks]
                    if turn == 0:
                        # Later on the tasks may be cancelled before they call.
                        self.assertEqual(self.kinds(told), {dchm.NotMade, dchm.OutcomeOpen})
                        self.assertEqual([each.key for each in told], [f"k{number}" for number in range(20)])
                await asyncio.sleep(TURN_SECONDS)
                # The first request of a connection, and four of the sixty.
                self.assertEqual(len(peer.got), 5)

    async def test_a_cancelled_call_that_waits_is_never_sent(self):
        with Peer(silent) as peer:
            async with await dchm.aio.connect(peer.port, in_flight=1, **PATIENT) as s:
                first, second = (asyncio.create_task(s.put(key, 1)) for key in "ab")
                await until(lambda: put_frame("a", 1) in peer.got)
                second.cancel()
                told = await outcome_of(second)
                self.assertEqual((type(told), told.method, told.key), (dchm.NotMade, "put", "b"))
                await s.close()
                self.assertEqual(self.kinds(await together([first])), {dchm.OutcomeOpen})
            self.assertNotIn(put_frame("b", 1), peer.got)

    async def test_what_is_true_of_a_cancelled_call_is_told(self):
        with Peer(silent) as peer:
            async with await dchm.aio.connect(peer.port, **PATIENT) as s:
                with self.assertRaises(asyncio.TimeoutError) as caught:
                    await asyncio.wait_for(s.put("a", 1), SHORT)
                told = dchm.outcome(caught.exception)
                self.assertEqual((type(told), told.method, told.key), (dchm.OutcomeOpen, "put", "a"))

    async def test_a_call_that_was_made_as_its_task_was_cancelled_says_its_result(self):
        with stand_in() as there:
            async with await dchm.aio.connect(there.address, **PATIENT) as s:
                task = asyncio.create_task(s.merge("a", dchm.SUM, 3))
                tell = s._tell

                def tell_and_cancel():
                    has_ended = bool(s._core.finished)
                    tell()
                    if has_ended:
                        task.cancel()

                with mock.patch.object(s, "_tell", tell_and_cancel):
                    told = await outcome_of(task)
                self.assertEqual((type(told), told.result), (dchm.Made, 3))

    async def test_a_closed_client_stays_closed(self):
        with Peer(silent) as peer:
            s = await dchm.aio.connect(peer.port, in_flight=2, **PATIENT)
            tasks = [asyncio.create_task(s.put(f"k{number}", 1)) for number in range(4)]
            await until(lambda: len(peer.got) >= 3)
            with self.soon():
                await s.close()
                found = await together(tasks)
                self.assertEqual([type(each) for each in found], [dchm.OutcomeOpen] * 2 + [dchm.Closed] * 2)
                for call in (s.get("a"), s.put("a", 1), s.longs().get("a")):
                    with self.assertRaises(dchm.Closed):
                        await call
            await s.close()
            self.assertEqual((len(peer.sockets), len(peer.got)), (1, 3))

    def test_another_loop_is_refused_at_once(self):
        with Peer(silent) as peer:
            with contextlib.closing(asyncio.new_event_loop()) as one, contextlib.closing(asyncio.new_event_loop()) as other, \
                    self.soon():
                s = one.run_until_complete(dchm.aio.connect(peer.port, **PATIENT))
                for call in (s.get("a"), s.remove("a"), s.close()):
                    with self.assertRaisesRegex(RuntimeError, "another event loop"):
                        other.run_until_complete(call)
                one.run_until_complete(s.close())
            self.assertEqual(len(peer.got), 1)

    async def test_peers_that_are_no_servers(self):
        def http(peer, client):
            client.recv(100)
            client.sendall(b"HTTP/1.1 400 Bad Request\r\n\r\n")
        with Peer(http) as peer:
            with self.soon(), self.assertRaisesRegex(dchm.NotMade, "doesn't speak as dchm serve.*HTTP"):
                await dchm.aio.connect(peer.port)
        with self.assertRaisesRegex(dchm.NotMade, "it is no socket"):
            await dchm.aio.connect(__file__)
        for address, kind in (("7411", ValueError), (None, TypeError), (True, TypeError), (0, ValueError)):
            with self.assertRaises(kind):
                await dchm.aio.connect(address)
        for options in ({"timeout": 0}, {"connect_timeout": -1}, {"in_flight": 0}):
            with self.assertRaises(ValueError):
                await dchm.aio.connect(1, **options)

    async def test_a_reply_of_another_method(self):
        yes = b"\0\x0a\2\1" + (1).to_bytes(8, "big")
        with Peer(replying(yes)) as peer:
            async with await dchm.aio.connect(peer.port, **PATIENT) as s:
                with self.assertRaisesRegex(dchm.OutcomeOpen, "merge 'a': .*another method"):
                    await s.merge("a", dchm.SUM, 1)
                with self.assertRaises(dchm.NotMade):
                    await s.get("a")
                self.assertIs(await s.contains("a"), True)
                self.assertEqual((peer.got.count(sum_frame("a")), peer.got.count(get_frame("a"))), (1, 1))

    async def test_sums_of_tasks_behind_a_proxy_that_cuts_delays_and_splits(self):
        async def sums(s, key):
            return [(await together([s.merge(key, dchm.SUM, 1)]))[0] for _ in range(40)]
        with real_process() as (_, port), Peer(Proxy(port, seed=5)) as peer:
            while True:
                with contextlib.suppress(dchm.NotMade):
                    s = await dchm.aio.connect(peer.port, **PATIENT)
                    break
            found = await asyncio.gather(*(sums(s, f"k{number}") for number in range(8)))
            await s.close()
            async with await dchm.aio.connect(port, **PATIENT) as direct:
                for number, each in enumerate(found):
                    made = [one for one in each if isinstance(one, int)]
                    is_open = sum(isinstance(one, dchm.OutcomeOpen) for one in each)
                    self.assertEqual(made, sorted(set(made)))
                    self.assertLessEqual(self.kinds(each), {int, dchm.OutcomeOpen, dchm.NotMade})
                    self.assertIn(await direct.get(f"k{number}") or 0, range(len(made), len(made) + is_open + 1))
            self.assertIn(dchm.OutcomeOpen, {type(one) for each in found for one in each}, "nothing was cut")

    async def test_views_have_values_of_one_kind(self):
        with real_process() as (_, port):
            async with await dchm.aio.connect(port, **PATIENT) as s:
                longs, texts = s.longs(), s.texts()
                self.assertIsNone(await longs.put("n", 5))
                self.assertEqual(await longs.update("n", lambda old: old * 2), 10)
                self.assertIsNone(await texts.put("t", "x"))
                with self.assertRaises(dchm.WrongValue):
                    await longs.get("t")
                with self.assertRaises(TypeError):
                    await texts.put("t", 1)


if __name__ == "__main__":
    sys.exit(suite.run_tests())
