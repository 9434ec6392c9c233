#!/usr/bin/env python3
"""Tests of the client for threads: its deadlines, its end, and peers that are no servers.

    PYTHONPATH=tests clients/python/test_deadlines.py [PROGRAM]

tests/clients runs them. A call that has to end by its deadline of SHORT seconds has many times that for slow machines.
The last line is `N passed, M failed`.
"""
import contextlib
import os
import signal
import socket
import sys
import threading
import time
import unittest

import dchm
from harness import servers, suite
from harness.suite import wait_until
from support import (ALONE, LONG, MOST_TURNS, PATIENT, SHORT, READY, Peer, Proxy, deaf, get_frame, put_frame, real, real_process,
                     replying, silent, stand_in, sum_frame)

# Far more than a deadline of SHORT, and far less than what the client would wait for otherwise.
SOON = 60
HASTY = {"timeout": SHORT, "connect_timeout": LONG, "idle": LONG}
THREADS = 16


def told(call):
    """What a call gives, or the exception that it raises."""
    try:
        return call()
    except dchm.DchmError as error:
        return error


def together(count, call):
    """What so many threads get of call(number), all at once."""
    found = [None] * count

    def work(number):
        found[number] = told(lambda: call(number))
    threads = [threading.Thread(target=work, args=(number,)) for number in range(count)]
    for thread in threads:
        thread.start()
    for thread in threads:
        thread.join()
    return found


class Timed(unittest.TestCase):
    @contextlib.contextmanager
    def soon(self):
        begin = time.monotonic()
        yield
        self.assertLess(time.monotonic() - begin, SOON, "it takes longer than its deadline")


class Deadlines(Timed):
    """A call ends by its deadline, whatever it waits for, and says what is true of it."""

    def test_a_stopped_server(self):
        with real_process() as (child, port), dchm.connect(port, **HASTY) as server:
            server.merge("a", dchm.SUM, 1)
            servers.stop(child)
            try:
                with self.soon():
                    found = together(THREADS, lambda number: server.merge("a", dchm.SUM, 1) if number % 2 else server.get("a"))
                    self.assertTrue(all(isinstance(each, (dchm.NotMade, dchm.OutcomeOpen)) for each in found), found)
                    self.assertRaises(dchm.NotMade, dchm.connect, port, LONG, SHORT)
                    with self.assertRaises(dchm.PipelineFailed), server.pipeline() as calls:
                        calls.merge("a", dchm.SUM, 1)
            finally:
                child.send_signal(signal.SIGCONT)
            is_open = sum(isinstance(each, dchm.OutcomeOpen) for each in found)
            with dchm.connect(port, **PATIENT) as patient:
                self.assertIn(patient.get("a"), range(1, 3 + is_open))
            self.assertGreaterEqual(server.merge("a", dchm.SUM, 1), 2)

    def test_a_server_that_takes_no_bytes(self):
        with Peer(deaf) as peer, dchm.connect(peer.port, **HASTY) as server:
            with self.soon(), self.assertRaises(dchm.PipelineFailed) as caught, server.pipeline() as calls:
                for number in range(4000):
                    calls.put(f"k{number}", "x" * 4096)
            kinds = [type(reply) for reply in caught.exception.replies]
            self.assertEqual(kinds, sorted(kinds, key=[dchm.OutcomeOpen, dchm.NotMade].index))
            self.assertEqual(set(kinds), {dchm.OutcomeOpen, dchm.NotMade})

    def test_a_silent_server_gets_each_change_once_and_reads_are_not_repeated_when_overdue(self):
        with Peer(silent) as peer, dchm.connect(peer.port, **HASTY) as server:
            with self.soon():
                self.assertIsInstance(told(lambda: server.get("a")), dchm.NotMade)
                self.assertIsInstance(told(lambda: server.merge("a", dchm.SUM, 1)), dchm.OutcomeOpen)
            self.assertEqual((peer.got.count(get_frame("a")), peer.got.count(sum_frame("a"))), (1, 1))

    def test_a_server_that_does_not_serve_the_connection(self):
        with socket.create_server((servers.HOST, 0)) as listener:
            port = listener.getsockname()[1]
            with self.soon(), self.assertRaises(dchm.NotMade) as caught:
                dchm.connect(port, connect_timeout=SHORT)
            self.assertIn(f"within {SHORT} s", str(caught.exception))

    def test_an_attempt_to_connect_that_a_call_left_does_not_fail_the_next_call(self):
        def serve(peer, client):
            number = len(peer.sockets)
            peer.frame(client)
            if number != 2:
                client.sendall(READY)
            if number == 1:
                client.close()
                return
            while peer.frame(client):
                client.sendall(READY)
        with Peer(serve) as peer, dchm.connect(peer.port, SHORT, connect_timeout=2 * SHORT, idle=LONG) as server:
            self.assertTrue(wait_until(lambda: isinstance(told(lambda: server.get("a")), dchm.NotMade), MOST_TURNS))
            time.sleep(3 * SHORT)
            server.timeout = LONG
            self.assertIsNone(server.get("a"))

    def test_a_server_that_went_away(self):
        with real_process() as (child, port), dchm.connect(port, **PATIENT) as server:
            server.put("a", 1)
            servers.kill(child)
            with self.soon():
                found = together(THREADS, lambda number: server.put(f"k{number}", 1))
            self.assertEqual({type(each) for each in found}, {dchm.NotMade}, found)

    def test_a_call_waits_for_no_connection_longer_than_its_time(self):
        with Peer(silent) as peer, dchm.connect(peer.port, LONG, LONG, connections=1) as server:
            holder = threading.Thread(target=told, args=(lambda: server.get("a"),))
            holder.start()
            self.assertTrue(wait_until(lambda: get_frame("a") in peer.got, MOST_TURNS))
            server.timeout = SHORT
            with self.soon():
                found = together(4, lambda number: server.merge("a", dchm.SUM, 1))
            self.assertEqual({type(each) for each in found}, {dchm.NotMade})
            self.assertTrue(holder.is_alive())
            server.close()
            holder.join()
            self.assertNotIn(sum_frame("a"), peer.got)

    def test_a_call_of_one_thread_holds_up_no_other(self):
        with stand_in("get a held") as there, dchm.connect(there.address, **PATIENT) as server:
            held = threading.Thread(target=server.get, args=("a",))
            held.start()
            self.assertTrue(wait_until(lambda: there.received(get_frame("a")), MOST_TURNS))
            self.assertIsNone(server.put("b", 1))
            server.get("release")
            held.join()

    def test_threads_share_what_the_server_has_of_connections(self):
        with real(*ALONE) as port, dchm.connect(port, **PATIENT) as server:
            for _ in range(20):
                found = together(THREADS, lambda number: server.merge("a", dchm.SUM, 1))
                self.assertFalse([each for each in found if not isinstance(each, int)])
            self.assertEqual(server.get("a"), 20 * THREADS)


class Closing(Timed):
    """A client is closed for good, at once, and from anywhere."""

    def closes(self, close_by):
        """Closes a client while its calls run, and returns what they give."""
        with Peer(silent) as peer, dchm.connect(peer.port, **PATIENT) as server:
            with self.soon():
                found = close_by(peer, server)
                self.assertRaises(dchm.Closed, server.get, "a")
            return found

    def test_by_a_signal_handler_while_a_call_runs(self):
        def close_by(peer, server):
            before = signal.signal(signal.SIGUSR1, lambda *_: server.close())
            self.addCleanup(signal.signal, signal.SIGUSR1, before)

            def signals():
                wait_until(lambda: sum_frame("a") in peer.got, MOST_TURNS)
                os.kill(os.getpid(), signal.SIGUSR1)
            thread = threading.Thread(target=signals)
            thread.start()
            found = told(lambda: server.merge("a", dchm.SUM, 1))
            thread.join()
            return found
        self.assertIsInstance(self.closes(close_by), dchm.OutcomeOpen)

    def test_by_another_thread_while_calls_run(self):
        def close_by(peer, server):
            def close():
                wait_until(lambda: len(peer.got) >= 8, MOST_TURNS)
                server.close()
            thread = threading.Thread(target=close)
            thread.start()
            found = together(4, lambda number: server.put(f"k{number}", 1))
            thread.join()
            return found
        self.assertEqual({type(each) for each in self.closes(close_by)}, {dchm.OutcomeOpen})

    def test_a_handler_may_make_calls_within_a_call(self):
        with stand_in("get a held") as there, dchm.connect(there.address, **PATIENT) as server:
            before = signal.signal(signal.SIGUSR1, lambda *_: server.get("release"))
            self.addCleanup(signal.signal, signal.SIGUSR1, before)

            def signals():
                wait_until(lambda: there.received(get_frame("a")), MOST_TURNS)
                os.kill(os.getpid(), signal.SIGUSR1)
            thread = threading.Thread(target=signals)
            thread.start()
            self.assertIsNone(server.get("a"))
            thread.join()


class Peers(Timed):
    """What isn't a server, or no address: the cause is named, and nothing is sent twice."""

    def test_addresses_and_options(self):
        for address, kind in (("7411", ValueError), (None, TypeError), (True, TypeError), (0, ValueError), (70_000, ValueError),
                              ("", ValueError), ("x" * 200, ValueError), (b"socket", TypeError), (7411.0, TypeError)):
            self.assertRaises(kind, dchm.connect, address)
        for name in ("timeout", "connect_timeout"):
            for value, kind in ((0, ValueError), (-1, ValueError), (float("nan"), ValueError), (None, TypeError),
                                ("5", TypeError), (True, TypeError)):
                self.assertRaises(kind, dchm.connect, 1, **{name: value})
        self.assertRaises(ValueError, dchm.connect, 1, connections=0)

    def test_a_path_that_is_no_socket(self):
        for path, said in ((__file__, "it is no socket"), ("/no/such", "No such file"), ("/", "it is no socket")):
            with self.assertRaises(dchm.NotMade, msg=path) as caught:
                dchm.connect(path)
            self.assertIn(said, str(caught.exception))

    def test_a_peer_of_another_protocol(self):
        def http(peer, client):
            client.recv(100)
            client.sendall(b"HTTP/1.1 400 Bad Request\r\n\r\n")
        with Peer(http) as peer, self.soon(), self.assertRaises(dchm.NotMade) as caught:
            dchm.connect(peer.port)
        self.assertIn("doesn't speak as dchm serve", str(caught.exception))
        self.assertIn("HTTP", str(caught.exception))

    def test_a_reply_of_another_method(self):
        yes = b"\0\x0a\2\1" + (1).to_bytes(8, "big")
        with Peer(replying(yes)) as peer, dchm.connect(peer.port, **PATIENT) as server:
            with self.assertRaises(dchm.OutcomeOpen) as caught:
                server.put("a", 1)
            self.assertEqual((caught.exception.method, caught.exception.key), ("put", "a"))
            self.assertIn("another method", str(caught.exception))
            self.assertEqual(peer.got.count(put_frame("a", 1)), 1)
            self.assertRaises(dchm.NotMade, server.get, "a")
            self.assertEqual(peer.got.count(get_frame("a")), 2)
            self.assertIs(server.contains("a"), True)
        with Peer(replying(READY)) as peer, dchm.connect(peer.port, **PATIENT) as server:
            for call in (server.count, lambda: server.get_or_default("a", 1), lambda: server.contains("a")):
                self.assertRaises(dchm.NotMade, call)
            self.assertIsNone(server.get("a"))
            self.assertRaises(dchm.OutcomeOpen, server.replace_if, "a", 1, 2)

    def test_a_read_is_sent_twice_at_most(self):
        def ends(peer, client):
            peer.frame(client)
            client.sendall(READY)
            peer.frame(client)
            client.close()
        with Peer(ends) as peer, dchm.connect(peer.port, **PATIENT) as server:
            for call, frame, kind, times in ((lambda: server.get("a"), get_frame("a"), dchm.NotMade, 2),
                                             (lambda: server.put("a", 1), put_frame("a", 1), dchm.OutcomeOpen, 1)):
                self.assertRaises(kind, call)
                self.assertEqual(peer.got.count(frame), times)

    def test_errors_name_method_and_key(self):
        with real() as port, dchm.connect(port, **PATIENT) as server:
            server.put("t", "x")
            with self.assertRaises(dchm.WrongKind) as caught:
                server.merge("t", dchm.SUM, 1)
            self.assertEqual((caught.exception.method, caught.exception.key), ("merge", "t"))
            self.assertIn("merge 't'", str(caught.exception))


class Proxies(Timed):
    """Behind a proxy that cuts, delays and splits each sum is made once or is open, and what was answered was made."""

    def test_sums_of_threads(self):
        with real() as port:
            with Peer(Proxy(port, seed=3)) as peer, contextlib.closing(self.connected(peer.port)) as server:
                found = together(8, lambda number: [told(lambda: server.merge(f"k{number}", dchm.SUM, 1)) for _ in range(40)])
                with dchm.connect(port, **PATIENT) as direct:
                    for number, each in enumerate(found):
                        made = [one for one in each if isinstance(one, int)]
                        is_open = sum(isinstance(one, dchm.OutcomeOpen) for one in each)
                        self.assertEqual(made, sorted(set(made)))
                        self.assertIn(direct.get(f"k{number}") or 0, range(len(made), len(made) + is_open + 1))
                self.assertTrue(any(isinstance(one, dchm.OutcomeOpen) for each in found for one in each), "nothing was cut")

    def connected(self, port):
        for _ in range(MOST_TURNS):
            with contextlib.suppress(dchm.NotMade):
                return dchm.connect(port, **PATIENT)
        raise AssertionError("the proxy never lets a client through")


if __name__ == "__main__":
    sys.exit(suite.run_tests())
