#!/usr/bin/env python3
"""Tests of the client of asyncio, against the real server and against tests/stand_in.py.

    PYTHONPATH=tests clients/python/test_dchm_async.py [PROGRAM]

tests/clients runs them. Nothing is timed: a call that is to succeed has all the time it needs.
The last line is `N passed, M failed`.
"""
import asyncio
import contextlib
import logging
import sys
import unittest

import dchm
import dchm.aio
from dchm import wire
from support import (ALONE, LONG, MOST_TURNS, PATIENT, SHORT, get_frame, name_of, real, real_at_socket, request_of,
                     rows, stand_in, sum_frame, told)
from harness import suite
from harness.suite import TURN_SECONDS, wait_until


async def made_soon(call):
    """What a call that is awaited gives once it is made: while the server has no place for the client, nothing of it is."""
    for _ in range(MOST_TURNS):
        with contextlib.suppress(dchm.NotMade):
            return await call()
        await asyncio.sleep(TURN_SECONDS)
    return await call()


class Async(unittest.IsolatedAsyncioTestCase):
    """The client for asyncio."""

    async def test_tasks_share_a_connection(self):
        with real() as port:
            async with await dchm.aio.connect(port, **PATIENT) as s:
                replies = await asyncio.gather(*(s.merge("a", dchm.SUM, 1) for _ in range(1000)))
                self.assertEqual(replies, list(range(1, 1001)))
                with self.assertRaises(dchm.WrongKind):
                    await s.merge("a", dchm.CONCAT, "x")
                await asyncio.gather(*(s.put(f"t{number}", "x" * 4096) for number in range(300)))
                self.assertEqual(await s.count(), 301)
                with self.assertRaises(TypeError):
                    await s.put("a", True)

    async def test_the_rows_of_the_page_are_sent(self):
        with stand_in() as there:
            async with await dchm.aio.connect(there.address, **PATIENT) as s:
                for request, reply in rows():
                    if reply[2] < 0x80 and request[2] < wire.COUNT:
                        await self.play(there, s, request, reply)
                self.assertEqual((await s.count(), await s.search("x"), await s.search(1)), (2, "n", None))
                await s.remove("n")
                self.assertEqual(await s.reduce(dchm.SUM), 2**63 - 2)

    async def play(self, there, s, request, reply):
        method, key, arguments = request_of(request[2:])
        try:
            found = await getattr(s, name_of(method))(key, *arguments)
        except dchm.DchmError as error:
            found = error
        wanted = told(reply)
        if isinstance(wanted, type):
            self.assertIsInstance(found, wanted, request.hex())
        else:
            self.assertEqual(found, wanted, request.hex())
        self.assertEqual((there.frames("got")[-1], there.frames("sent")[-1]), (request.hex().upper(), reply.hex().upper()))

    async def test_what_is_under_way_is_told_when_a_connection_breaks(self):
        with stand_in("merge a unmade") as there:
            async with await dchm.aio.connect(there.address, **PATIENT) as s:
                got = await asyncio.gather(s.merge("a", dchm.SUM, 1), s.put("c", 1), s.get("c"), return_exceptions=True)
                self.assertEqual([type(each) for each in got], [dchm.OutcomeOpen, dchm.OutcomeOpen, dchm.NotMade])
                self.assertIsNone(await s.get("a"))
                self.assertEqual(there.received(sum_frame("a")), 1)

    async def test_a_change_that_stalls_is_open(self):
        with stand_in("merge a stall") as there:
            async with await dchm.aio.connect(there.address, timeout=SHORT, connect_timeout=LONG) as s:
                with self.assertRaises(dchm.OutcomeOpen):
                    await s.merge("a", dchm.SUM, 1)
                self.assertTrue(await self.answers(s), "the client never answers again")
            self.assertTrue(wait_until(lambda: there.received(sum_frame("a")), MOST_TURNS), "the sum never comes")
            self.assertEqual(there.received(sum_frame("a")), 1)

    async def test_a_failed_store_and_garbled_replies(self):
        with stand_in("merge a failed", "merge b garbled", "merge c full", "merge d cut 3") as there:
            async with await dchm.aio.connect(there.address, **PATIENT) as s:
                for key, kind in (("a", dchm.OutcomeOpen), ("b", dchm.OutcomeOpen), ("c", dchm.NoMemory), ("d", dchm.OutcomeOpen)):
                    with self.assertRaises(kind, msg=key):
                        await s.merge(key, dchm.SUM, 1)
                    # The connection of a failed store ends by itself.
                    self.assertTrue(await self.answers(s), f"behind {key} the client never answers again")
                    self.assertEqual(there.received(sum_frame(key)), 1)

    async def test_updates_of_many_tasks_count_exactly(self):
        with real() as port:
            async with await dchm.aio.connect(port, **PATIENT) as s:
                await asyncio.gather(*(s.update("a", lambda number: (number or 0) + 1) for _ in range(20)))
                self.assertEqual(await s.get("a"), 20)
                self.assertIsNone(await s.update("a", lambda number: None))
                self.assertIs(await s.contains("a"), False)

    async def answers(self, s):
        for _ in range(MOST_TURNS):
            with contextlib.suppress(dchm.NotMade):
                await s.get("a")
                return True
        return False

    async def test_a_cancelled_call_takes_no_reply_of_another(self):
        with stand_in("get a held") as there:
            async with await dchm.aio.connect(there.address, **PATIENT) as s, \
                    await dchm.aio.connect(there.address, **PATIENT) as other:
                await s.put("b", 7)
                task = asyncio.create_task(s.get("a"))
                while not there.received(get_frame("a")):
                    await asyncio.sleep(TURN_SECONDS)
                task.cancel()
                with self.assertRaises(asyncio.CancelledError):
                    await task
                behind = asyncio.create_task(s.get("b"))
                await other.get("release")
                self.assertEqual(await behind, 7)

    async def test_an_idle_client_frees_its_place_and_comes_back(self):
        with real(*ALONE) as port:
            async with await dchm.aio.connect(port, timeout=LONG, connect_timeout=LONG, idle=SHORT) as first:
                async with await made_soon(lambda: dchm.aio.connect(port, **PATIENT)) as second:
                    self.assertIsNone(await second.put("a", 1))
                self.assertEqual(await made_soon(lambda: first.merge("a", dchm.SUM, 1)), 2)

    async def test_connecting_tells_why_it_failed(self):
        with real(*ALONE) as port:
            async with await dchm.aio.connect(port, **PATIENT):
                with self.assertRaises(dchm.NotMade) as caught:
                    await dchm.aio.connect(port, **PATIENT)
                self.assertIn("--connections", str(caught.exception))
        with self.assertRaises(dchm.NotMade):
            await dchm.aio.connect(port)

    async def test_a_unix_socket_is_as_good_as_a_port(self):
        with stand_in(unix=True) as there, real_at_socket() as path:
            for address in (there.address, path):
                async with await dchm.aio.connect(address, **PATIENT) as s:
                    replies = await asyncio.gather(*(s.merge("a", dchm.SUM, 1) for _ in range(100)))
                    self.assertEqual(replies, list(range(1, 101)))


if __name__ == "__main__":
    logging.getLogger("asyncio").setLevel(logging.ERROR)
    sys.exit(suite.run_tests())
