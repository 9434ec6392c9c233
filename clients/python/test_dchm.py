#!/usr/bin/env python3
"""Tests of the client for Python, against the real server and against tests/stand_in.py.

    PYTHONPATH=tests clients/python/test_dchm.py [PROGRAM]

tests/clients runs them. Nothing is timed: a call that is to succeed has all the time it needs.
The last line is `N passed, M failed`.
"""
import contextlib
import os
import re
import signal
import sys
import threading
import time
import unittest
from unittest import mock

import dchm
from dchm import wire
from dchm.core import Link
from dchm.lane import Lane
from dchm.pool import Pool
from support import (ALONE, LONG, MOST_TURNS, PATIENT, SHORT, get_frame, name_of, put_frame, real, real_at_socket, request_of,
                     rows, stand_in, sum_frame, told)
from harness import suite
from harness.places import PROTOCOL_PAGE, read
from harness.suite import TURN_SECONDS, wait_until

SMILE, HALF = "\U0001F600", "\ud83d"
MADE = ("drop", "reset", "failed", "garbled", *(f"cut {count}" for count in range(12)))


def made(call):
    """What a call gives once it is made: while the server has no place for the client, nothing of it is."""
    for _ in range(MOST_TURNS):
        with contextlib.suppress(dchm.NotMade):
            return call()
        time.sleep(TURN_SECONDS)
    return call()


def has_ended(server):
    """Whether a client that nobody uses has taken note that its connection ended."""
    lane = server._pool._free[-1]
    lane.look(time.monotonic())
    return lane.core.link is Link.NONE


def call_of(server, body):
    """What the public methods make of a request."""
    method, key, arguments = request_of(body)
    if key is not None:
        return getattr(server, name_of(method))(key, *arguments)
    if method == wire.COUNT:
        return server.count()
    return server.reduce(*arguments) if method == wire.REDUCE else server.search(arguments[1], arguments[0])


class Page(unittest.TestCase):
    """Each row of docs/PROTOCOL.md that shows bytes: the client sends these, and says what the reply says."""

    def test_each_row(self):
        played = {"key": 0, "whole map": 0, "wrong": 0}
        whole = sum(reply[2] < 0x80 and request[2] >= wire.COUNT for request, reply in rows())
        with stand_in() as there, dchm.connect(there.address, **PATIENT) as server:
            for request, reply in rows():
                kind = "wrong" if reply[2] >= 0x80 else "whole map" if request[2] >= wire.COUNT else "key"
                if kind == "whole map" and played[kind] == 0:
                    self.renew(server, {"a": 5, "b": 7})
                if kind == "whole map" and played[kind] == whole - 2:
                    self.renew(server, {"a": 5, "c": "x"})
                self.play(there, server, kind, request, reply)
                played[kind] += 1
        self.assertEqual(sum(played.values()), len(rows()))
        for kind, least in (("key", 18), ("whole map", 7), ("wrong", 11)):
            self.assertGreaterEqual(played[kind], least, kind)

    def renew(self, server, entries):
        for key in ("a", "b", "c", "m", "n"):
            server.remove(key)
        for key, value in entries.items():
            server.put(key, value)

    def play(self, there, server, kind, request, reply):
        if request == b"\0\0":
            # No request of a client, so its reply alone is one of the page's.
            self.assertIsInstance(wire.result(b"\0\1\x20", reply[2:]), dchm.BadFrame)
            return
        try:
            found = server._call(request) if kind == "wrong" else call_of(server, request[2:])
        except dchm.DchmError as error:
            found = error
        wanted = told(reply)
        if isinstance(wanted, type):
            self.assertIsInstance(found, wanted, request.hex())
        else:
            self.assertEqual((type(found), found), (type(wanted), wanted), request.hex())
        if kind == "wrong":
            self.assertEqual(found.number, reply[2] - 0x80)
        self.assertEqual((there.frames("got")[-1], there.frames("sent")[-1]), (request.hex().upper(), reply.hex().upper()))

    def test_each_refusal_has_its_name(self):
        names = re.findall(r"^\| `([0-9A-F]{2})` (\w+) \|.*\| (\w+)[^|]*\|$", read(PROTOCOL_PAGE), re.MULTILINE)
        self.assertGreaterEqual(len(names), 9)
        change = wire.request(wire.REMOVE, "a")
        for status, name, _ in names:
            found = wire.result(change, bytes([int(status, 16), 0]))
            self.assertEqual(type(found).__name__, "OutcomeOpen" if name == "Failed" else name)

    def test_bytes_that_are_no_reply(self):
        for body in ("00", "0003", "000100", "0002000261", "0000000000", "02010000000000000002", "02020001FF",
                     "03010000000000000004", "0400", "870000", "8701", "01020002616263", "01020001FF"):
            with self.assertRaises(ConnectionError, msg=body):
                wire.result(get_frame("a"), bytes.fromhex(body).ljust(2, b"\7"))


class Methods(unittest.TestCase):
    """What the methods do, against the real server."""

    def setUp(self):
        port = real()
        self.port = port.__enter__()
        self.addCleanup(port.__exit__, None, None, None)
        self.server = dchm.connect(self.port, **PATIENT)
        self.addCleanup(self.server.close)

    def test_the_methods_are_those_of_the_map(self):
        s = self.server
        self.assertIsNone(s.put("a", 5))
        self.assertEqual(s.get("a"), 5)
        self.assertEqual(s.get_or_default("b", "x"), "x")
        self.assertIs(s.contains("b"), False)
        self.assertEqual(s.put_if_absent("a", 7), 5)
        self.assertEqual(s.replace("a", -2**63), 5)
        self.assertIs(s.replace_if("a", 5, 6), False)
        self.assertIs(s.replace_if("a", -2**63, SMILE), True)
        self.assertIs(s.remove_if("a", "x"), False)
        self.assertEqual(s.remove("a"), SMILE)
        self.assertEqual(s.merge("m", dchm.SUM, 1), 1)
        self.assertEqual(s.merge("m", dchm.SUM, 1), 2)
        self.assertEqual(s.compute("m", dchm.MAX, 9), 9)
        self.assertEqual(s.compute_if_absent("n", dchm.CONST, "x"), "x")
        self.assertIsNone(s.compute_if_present("n", dchm.DROP))
        self.assertEqual((s.count(), s.reduce(dchm.SUM), s.search(9), s.search(8)), (1, 9, "m", None))
        self.assertEqual(s.update("m", lambda number: number * 2), 18)
        self.assertIsNone(s.update("m", lambda number: None))
        self.assertEqual(s.update("m", lambda number: (number or 0) + 1), 1)
        self.assertIsNone(s.put("k" * 4095, "x" * 4096))
        self.assertEqual(s.count(), 2)

    def test_what_no_server_can_hold_is_refused_before_it_is_sent(self):
        s = self.server
        for value, kind in ((2**63, OverflowError), (-2**63 - 1, OverflowError), (1.5, TypeError), (True, TypeError),
                            (None, TypeError), (b"x", TypeError), ("x" * 4097, ValueError), ("\u00e9" * 2049, ValueError),
                            (HALF, ValueError), ("a" + HALF, ValueError)):
            for call in (lambda: s.put("a", value), lambda: s.put_if_absent("a", value), lambda: s.replace_if("a", value, 1),
                         lambda: s.merge("a", dchm.CONST, value), lambda: s.search(value)):
                self.assertRaises(kind, call)
        for key, kind in (("k" * 4096, ValueError), ("\u00e9" * 2048, ValueError), (HALF, ValueError), (5, TypeError),
                          (None, TypeError), (b"a", TypeError)):
            self.assertRaises(kind, s.put, key, 1)
            self.assertRaises(kind, s.get, key)
        # Java has the arguments of merge in the other order.
        for function, value in ((1, dchm.SUM), (4, 1), (None, 1), ("SUM", 1), (dchm.SUM, dchm.SUM)):
            self.assertRaises(TypeError, s.merge, "a", function, value)
            self.assertRaises(TypeError, s.compute, "a", function, value)
        self.assertRaises(TypeError, s.reduce, 4)
        self.assertRaises(TypeError, s.put, "a", dchm.SUM)
        self.assertEqual(s.count(), 0)

    def test_refusals_and_faults_are_exceptions(self):
        s = self.server
        self.assertRaises(dchm.UnknownFunction, s.reduce, dchm.CONCAT)
        s.put("t", "x" * 4096)
        s.put("n", 2**63 - 1)
        self.assertRaises(dchm.WrongKind, s.merge, "t", dchm.SUM, 1)
        self.assertRaises(dchm.TooLong, s.merge, "t", dchm.CONCAT, "y")
        self.assertRaises(OverflowError, s.merge, "n", dchm.SUM_EXACT, 1)
        self.assertEqual((s.get("t"), s.get("n")), ("x" * 4096, 2**63 - 1))

    def test_a_pipeline_answers_in_order_and_never_stalls(self):
        with self.assertRaises(dchm.PipelineFailed) as caught, self.server.pipeline() as calls:
            for _ in range(1000):
                calls.merge("a", dchm.SUM, 1)
            calls.put("t", "x" * 4096)
            calls.merge("t", dchm.SUM, 1)
            for _ in range(1000):
                calls.get("t")
        self.assertEqual(calls.replies[:1000], list(range(1, 1001)))
        self.assertIsInstance(calls.replies[1001], dchm.WrongKind)
        self.assertEqual(calls.replies[1002:], ["x" * 4096] * 1000)
        self.assertEqual((caught.exception.replies, caught.exception.failures), (calls.replies, [calls.replies[1001]]))
        with self.server.pipeline() as calls:
            calls.get("a")
        self.assertEqual(calls.replies, [1000])
        with self.server.pipeline() as calls:
            pass
        self.assertEqual(calls.replies, [])

    def test_a_pipeline_whose_block_fails_sends_nothing(self):
        with self.assertRaises(KeyError), self.server.pipeline() as calls:
            calls.put("a", 1)
            raise KeyError
        self.assertIsNone(self.server.get("a"))

    def test_updates_of_many_clients_and_threads_count_exactly(self):
        def work(server):
            for _ in range(25):
                server.update("a", lambda number: (number or 0) + 1)
                self.server.merge("b", dchm.SUM, 1)

        with contextlib.ExitStack() as stack:
            threads = [threading.Thread(target=work, args=(stack.enter_context(dchm.connect(self.port, **PATIENT)),))
                       for _ in range(8)]
            for thread in threads:
                thread.start()
            for thread in threads:
                thread.join()
        self.assertEqual((self.server.get("a"), self.server.get("b")), (200, 200))

    def test_a_closed_client_stays_closed(self):
        self.server.close()
        for call in (lambda: self.server.get("a"), lambda: self.server.put("a", 1), lambda: self.server.longs().get("a")):
            self.assertRaises(dchm.Closed, call)
        with self.assertRaises(dchm.Closed), self.server.pipeline() as calls:
            calls.get("a")
        self.server.close()

    def test_views_have_values_of_one_kind(self):
        longs, texts = self.server.longs(), self.server.texts()
        self.assertIsNone(longs.put("n", 5))
        self.assertEqual((longs.merge("n", dchm.SUM, 2), longs.update("n", lambda old: old * 2)), (7, 14))
        self.assertIsNone(texts.put_if_absent("t", "x"))
        self.assertEqual((texts.get("t"), texts.search("x"), texts.count(), longs.contains("t")), ("x", "t", 2, True))
        for call in (lambda: texts.get("n"), lambda: texts.put("n", "x"), lambda: longs.get("t")):
            with self.assertRaises(dchm.WrongValue) as caught:
                call()
            self.assertIn(caught.exception.key, ("n", "t"))
        self.assertEqual(self.server.get("n"), "x")
        for call in (lambda: longs.put("a", "x"), lambda: texts.put("a", 1), lambda: longs.put("a", True),
                     lambda: texts.put("a", None), lambda: longs.replace_if("a", 1, "x")):
            self.assertRaises(TypeError, call)
        self.assertIs(self.server.contains("a"), False)


class Outcomes(unittest.TestCase):
    """What a client says of a server that stalls, breaks off and lies, and that it sends no change twice."""

    def test_a_change_without_a_whole_reply_is_open_and_sent_once(self):
        rules = {rule.replace(" ", ""): rule for rule in (*MADE, "unmade")}
        with stand_in(*(f"merge {key} {rule}" for key, rule in rules.items())) as there:
            with dchm.connect(there.address, **PATIENT) as server:
                for key, rule in rules.items():
                    with self.assertRaises(dchm.OutcomeOpen, msg=rule):
                        server.merge(key, dchm.SUM, 1)
                    self.assertEqual(server.get(key), None if rule == "unmade" else 1, rule)
                    self.assertEqual(there.received(sum_frame(key)), 1, rule)

    def test_a_change_that_stalls_is_open_and_sent_once(self):
        with stand_in("merge a stall", "merge b late") as there, dchm.connect(there.address, **PATIENT) as server:
            for key in "ab":
                with dchm.connect(there.address, timeout=SHORT, connect_timeout=LONG) as hasty:
                    self.assertRaises(dchm.OutcomeOpen, hasty.merge, key, dchm.SUM, 1)
                self.assertTrue(wait_until(lambda: server.get(key) is not None, MOST_TURNS), f"{key} is never there")
                self.assertEqual((server.get(key), there.received(sum_frame(key))), (1, 1))

    def test_a_reply_that_comes_late_or_in_pieces_is_a_reply(self):
        with stand_in("merge a held", "merge b bytewise") as there, dchm.connect(there.address, **PATIENT) as server:
            with dchm.connect(there.address, **PATIENT) as other:
                def let_go():
                    return wait_until(lambda: there.received(sum_frame("a")), MOST_TURNS) and other.get("release")
                release = threading.Thread(target=let_go)
                release.start()
                self.assertEqual(server.merge("a", dchm.SUM, 1), 1)
                release.join()
            self.assertEqual(server.merge("b", dchm.SUM, 1), 1)

    def test_a_reply_to_no_request_ends_the_connection(self):
        with stand_in("merge a twice") as there, dchm.connect(there.address, **PATIENT) as server:
            self.assertEqual(server.merge("a", dchm.SUM, 1), 1)
            self.assertTrue(wait_until(lambda: has_ended(server), MOST_TURNS), "the connection never ends")
            self.assertEqual(server.merge("a", dchm.SUM, 1), 2)

    def test_a_refusal_for_want_of_memory_changes_nothing_and_may_be_tried_again(self):
        with stand_in("merge a full") as there, dchm.connect(there.address, **PATIENT) as server:
            self.assertRaises(dchm.NoMemory, server.merge, "a", dchm.SUM, 1)
            self.assertEqual(there.received(sum_frame("a")), 1)
            self.assertEqual(server.merge("a", dchm.SUM, 1), 1)

    def test_a_read_without_a_reply_is_sent_once_more(self):
        rules = {rule.replace(" ", ""): rule for rule in ("drop", "reset", "unmade", "cut 5", "garbled")}
        with stand_in(*(f"get {key} {rule}" for key, rule in rules.items()), "get f failed") as there:
            with dchm.connect(there.address, **PATIENT) as server:
                for key, rule in rules.items():
                    server.put(key, 1)
                    self.assertEqual(server.get(key), 1, rule)
                    self.assertEqual(there.received(get_frame(key)), 2, rule)
                self.assertRaises(dchm.NotMade, server.get, "f")
                self.assertEqual(there.received(get_frame("f")), 1)

    def test_an_update_is_not_tried_again_once_a_change_is_open(self):
        with stand_in("replaceIf a drop") as there, dchm.connect(there.address, **PATIENT) as server:
            server.put("a", 1)
            self.assertRaises(dchm.OutcomeOpen, server.update, "a", lambda number: number + 1)
            self.assertEqual(server.get("a"), 2)

    def test_a_pipeline_that_breaks_raises_with_what_was_made_and_sends_no_more(self):
        with stand_in("put p5 drop") as there, dchm.connect(there.address, **PATIENT) as server:
            with self.assertRaises(dchm.PipelineFailed) as caught, server.pipeline() as calls:
                for number in range(200):
                    calls.put(f"p{number}", number)
                    calls.get(f"p{number}")
            # The replies of the first calls may have come. All that was sent behind the break is lost, and no more is sent.
            kinds = [type(reply) for reply in calls.replies]
            self.assertEqual(len(kinds), 400)
            self.assertEqual((kinds[10], kinds[11]), (dchm.OutcomeOpen, dchm.NotMade))
            sent = kinds.index(dchm.NotMade, kinds.index(dchm.OutcomeOpen))
            self.assertEqual({*kinds[10:]}, {dchm.OutcomeOpen, dchm.NotMade})
            self.assertEqual({*kinds[11::2]}, {dchm.NotMade})
            self.assertEqual({*kinds[sent + 128::2]}, {dchm.NotMade})
            self.assertEqual(caught.exception.replies, calls.replies)
            for number in range(200):
                got = there.received(put_frame(f"p{number}", number))
                self.assertLessEqual(got, kinds[2 * number] is not dchm.NotMade, number)
            self.assertEqual((server.get("p4"), server.get("p199")), (4, None))

    def test_an_interrupted_call_leaves_no_reply_for_the_next(self):
        def interrupt(*_):
            raise KeyboardInterrupt

        before = signal.signal(signal.SIGUSR1, interrupt)
        self.addCleanup(signal.signal, signal.SIGUSR1, before)
        with stand_in("get a held", "merge b held") as there, dchm.connect(there.address, **PATIENT) as server, \
                dchm.connect(there.address, **PATIENT) as other:
            server.put("a", 5)
            for call, frame in ((lambda: server.get("a"), get_frame("a")),
                                (lambda: server.merge("b", dchm.SUM, 1), sum_frame("b"))):
                def signals():
                    wait_until(lambda: there.received(frame), MOST_TURNS)
                    os.kill(os.getpid(), signal.SIGUSR1)
                thread = threading.Thread(target=signals)
                thread.start()
                with self.assertRaises(KeyboardInterrupt) as caught:
                    call()
                thread.join()
                found = dchm.outcome(caught.exception)
                self.assertEqual((type(found), found.method, found.key), {
                    get_frame("a"): (dchm.NotMade, "get", "a"), sum_frame("b"): (dchm.OutcomeOpen, "merge", "b")}[frame])
                self.assertIs(server.contains("a"), True)
                self.assertEqual(there.received(frame), 1)
            other.get("release")
            self.assertEqual((server.get("a"), server.get("b")), (5, 1))

    def test_what_was_not_sent_as_an_interrupt_came_was_not_made(self):
        with stand_in() as there, dchm.connect(there.address, **PATIENT) as server:
            for method in ("look", "_step"):
                server._pool._free[0].end(OSError("a test's own"))
                with mock.patch.object(Lane, method, side_effect=KeyboardInterrupt), self.assertRaises(KeyboardInterrupt) as caught:
                    server.put("a", 1)
                found = dchm.outcome(caught.exception)
                self.assertEqual((type(found), found.method, found.key), (dchm.NotMade, "put", "a"))
            with mock.patch.object(Pool, "taken", side_effect=KeyboardInterrupt), self.assertRaises(KeyboardInterrupt) as caught:
                server.put("a", 1)
            self.assertIs(type(dchm.outcome(caught.exception)), dchm.NotMade)
            self.assertIsNone(dchm.outcome(KeyboardInterrupt()))
            self.assertEqual((server.get("a"), there.received(put_frame("a", 1))), (None, 0))

    def test_a_call_that_was_made_as_an_interrupt_came_says_its_result(self):
        whole = Lane._step

        def step(lane):
            whole(lane)
            if lane.core.finished:
                raise KeyboardInterrupt

        with stand_in() as there, dchm.connect(there.address, **PATIENT) as server:
            server.put("a", 1)
            with mock.patch.object(Lane, "_step", step):
                with self.assertRaises(KeyboardInterrupt) as caught:
                    server.merge("a", dchm.SUM, 1)
                self.assertEqual((type(dchm.outcome(caught.exception)), dchm.outcome(caught.exception).result), (dchm.Made, 2))
                with self.assertRaises(KeyboardInterrupt) as caught, server.pipeline() as calls:
                    calls.put("a", 1)
                    calls.get("b")
                found = dchm.outcome(caught.exception)
                self.assertEqual((type(found), type(found.replies[0])), (dchm.PipelineFailed, dchm.Made))
            self.assertEqual(server.get("a"), 1)

    def test_connecting_tells_why_it_failed(self):
        with stand_in("get '' failed") as there:
            with self.assertRaises(dchm.NotMade) as caught:
                dchm.connect(there.address, **PATIENT)
            self.assertIn("refused 9 Failed", str(caught.exception))
            port = there.address
            dchm.connect(port, **PATIENT).close()
        self.assertRaises(dchm.NotMade, dchm.connect, port)
        self.assertRaises(dchm.NotMade, dchm.connect, "/no/such/socket")

    def test_a_server_that_serves_no_more_connections_is_told(self):
        with real(*ALONE) as port, dchm.connect(port, **PATIENT):
            with self.assertRaises(dchm.NotMade) as caught:
                dchm.connect(port, **PATIENT)
            self.assertIn("--connections", str(caught.exception))

    def test_an_idle_client_frees_its_place_and_comes_back(self):
        with real(*ALONE) as port, dchm.connect(port, timeout=LONG, connect_timeout=LONG, idle=SHORT) as first:
            with made(lambda: dchm.connect(port, **PATIENT)) as second:
                self.assertIsNone(second.put("a", 1))
            self.assertEqual(made(lambda: first.merge("a", dchm.SUM, 1)), 2)

    def test_the_end_of_an_idle_connection_by_the_server_is_no_error(self):
        with stand_in("put a quit") as there, dchm.connect(there.address, **PATIENT) as server:
            server.put("a", 1)
            self.assertTrue(wait_until(lambda: has_ended(server), MOST_TURNS), "the connection never ends")
            self.assertEqual(server.merge("a", dchm.SUM, 1), 2)

    def test_a_unix_socket_is_as_good_as_a_port(self):
        with stand_in("merge b drop", "get c drop", unix=True) as there, dchm.connect(there.address, **PATIENT) as server:
            self.assertEqual((server.put("a", 1), server.merge("a", dchm.SUM, 2), server.count()), (None, 3, 1))
            self.assertRaises(dchm.OutcomeOpen, server.merge, "b", dchm.SUM, 1)
            self.assertIsNone(server.get("c"))
        with real_at_socket() as path, dchm.connect(path, **PATIENT) as server:
            self.assertEqual((server.put("a", 1), server.merge("a", dchm.SUM, 2), server.count()), (None, 3, 1))


if __name__ == "__main__":
    sys.exit(suite.run_tests())
