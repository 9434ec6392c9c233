#!/usr/bin/env python3
"""Plays the core of the client for Python in random orders of events: clients/python/search_core.py [--seed S] [--seeds N]

Nothing here is a socket, a thread or a clock. Each seed chooses limits, and events one after the other: calls, cancels,
connections that open, fail and break, bytes that go and come in pieces, wrong replies, time, closing. Beside it stands a
model of what servers may have got, byte by byte (core_model.py). It says of each call, once all is over:

    it ended once, by its deadline
    a result      its request was read whole by one server, and the result is that server's reply
    NotMade       no server ever gets the whole of it, or it is a read
    OutcomeOpen   it is a change of which each byte went, and its reply didn't come

No change goes twice. The bytes of a connection are whole requests in the order of the calls, the first a Get of the empty
key. A connection ends by itself only if it is idle or a reply is overdue. At the end each new call is answered.
A fault is told with its seed. The last line is `N passed, M failed`.
"""
import argparse
import concurrent.futures
import os
import random
import sys
import threading
import time
import traceback

from core_model import READY, Model, Stream, check, has_connection
from dchm import wire
from dchm.core import Core, Link
from dchm.errors import Closed, NotMade, OutcomeOpen

EVENTS = 80
# Seconds of which an event takes some; the limits are chosen among them.
STEPS = (0.0, 0.0, 0.01, 0.1, 0.5, 2.0)
SEEDS_AT_A_TIME = 500
ERRORS = (ConnectionResetError("reset"), BrokenPipeError("broken"), OSError("no route"), ConnectionRefusedError("refused"))
# Bytes that end the connection: of another protocol, a kind of value and a length that there aren't, another method's reply.
WRONG = (b"HTTP/1.1 400", b"\0\2\1\7", b"\0\1", b"\0\x0a\2\1\0\0\0\0\0\0\0\1", b"\0\x0a\3\1\0\0\0\0\0\0\0\1")
OFTEN = (0.3, 1, 1, 5)


class Played:
    """One seed: the core, and the world around it."""

    def __init__(self, seed):
        self.random = random.Random(seed)
        chosen = self.random.choice
        self.seconds, self.idle, resends = chosen((0.5, 3.0, 20.0)), chosen((0, 1.0, 5.0)), chosen((0, 1, 2))
        in_flight = chosen((1, 2, 4, 64))
        self.core = Core("here", chosen((0.5, 2.0)), self.idle, in_flight, resends)
        self.model = Model(in_flight, resends, self.random)
        self.now = self.ticked = 100.0
        self.stream, self.is_closed = None, False

    # -- events of callers

    def begin(self):
        number, is_change = len(self.model.asked), self.random.random() < 0.6
        value = wire.text_bytes("x" * self.random.choice((0, 3, 4096))) if is_change else b""
        frame = wire.request(wire.PUT if is_change else wire.GET, f"k{number}", value)
        seconds = 0.0 if self.random.random() < 0.02 else self.seconds * self.random.choice((0.5, 1, 1, 1, 3))
        self.ask(frame, self.now + seconds, is_change)

    def ask(self, frame, deadline, is_change):
        call = self.core.begin(frame, self.now, deadline)
        self.model.ask((frame, deadline, is_change), call)
        check(not self.is_closed or isinstance(call.outcome, Closed), "a closed client takes a call")
        check(deadline > self.now or isinstance(call.outcome, NotMade), "a call begins whose time is over")
        return call

    def cancel(self):
        asked = self.random.choice(self.model.asked) if self.model.asked else None
        if asked and not asked.ends:
            self.core.cancel(asked.call)
            asked.is_cancelled, asked.ends = True, 1
            check(asked.call.is_done and asked.call.outcome is not None, "a cancelled call goes on")

    def open(self):
        epoch, is_needed = self.core.epoch, self.core.link is Link.NONE
        self.core.open(self.now)
        check(self.core.epoch == epoch + is_needed, "an attempt to connect is made beside another")

    def close(self):
        if self.random.random() < 0.1:
            self.core.close()
            self.is_closed = True
            self.ended_all()

    def end(self):
        if self.random.random() < 0.2:
            self.core.end("an interrupt")
            self.ended_all()

    def ended_all(self):
        self.follow()
        check(all(asked.ends for asked in self.model.asked), "a call goes on after the end of all")
        check(self.core.is_quiet(), "something is under way after the end of all")

    # -- time

    def wait(self):
        """Time goes on, and the shell tells of it when the core asked for it."""
        end = self.now + self.random.choice(STEPS)
        while self.core.due <= end:
            self.now = max(self.now, self.core.due)
            self.tick()
        self.now = end
        if self.random.random() < 0.3:
            self.tick()

    def tick(self):
        stream, core, model = self.stream, self.core, self.model
        is_up, under_way = core.link is Link.UP, stream.under_way() if stream else 0
        waiting = [asked for asked in model.waiting() if asked.deadline > self.now]
        is_overdue = any(asked.deadline <= self.now for asked in model.begun())
        core.tick(self.now)
        self.ticked = self.now
        if is_up and not has_connection(core, stream):
            is_idle = self.idle and not under_way and not waiting and self.now >= stream.last_use + self.idle
            check(is_overdue or is_idle, "a connection ends that is neither idle nor overdue")
        if is_up and has_connection(core, stream) and self.idle and not under_way and not waiting:
            check(self.now < stream.last_use + self.idle, "an idle connection stays")
        self.follow()
        check(core.due > self.now, f"a tick leaves what is due at {core.due} to do")

    # -- events of the connection

    def connect(self):
        if self.core.link is Link.OPENING:
            if self.random.random() < 0.9:
                self.core.connected(self.now)
                self.stream.last_use = self.now
            else:
                self.core.lost(self.random.choice(ERRORS), self.now)

    def send(self):
        data = self.core.unsent()
        if not data:
            return
        check(has_connection(self.core, self.stream), "bytes for a connection that isn't there")
        count = self.random.choice((0, 1, len(data) // 2, len(data), len(data), len(data)))
        self.core.sent(count, self.now)
        self.model.went(self.stream, data, count, self.now)

    def serve(self):
        """The server of any connection, also of one that is over, reads more of what went to it."""
        if self.model.streams:
            self.model.serve(self.random.choice(self.model.streams[-3:]), self.random.choice((1, 1, 2, 64)))

    def receive(self):
        """Some of the replies come, perhaps a part of one; seldom the end, or what no server sends."""
        stream, kind = self.stream, self.random.random()
        if not has_connection(self.core, stream):
            return
        if kind < 0.02:
            self.core.received(b"", self.now)
            check(not has_connection(self.core, stream), "the end is ignored")
        elif kind < 0.04 and not stream.is_within():
            wrong = READY if len(stream.frames) == stream.answered() else self.random.choice(WRONG)
            self.core.received(wrong, self.now)
            check(not has_connection(self.core, stream), f"{wrong!r} is ignored")
        elif data := stream.uncame():
            self.take(stream, data[:self.random.choice((1, 3, len(data), len(data)))])

    def take(self, stream, data):
        before = stream.answered()
        stream.came, stream.last_use = stream.came + len(data), self.now
        self.core.received(data, self.now)
        self.model.answers(stream, before)

    def bring_up(self):
        """A server takes the connection at once."""
        while self.core.link in (Link.OPENING, Link.TRIED) and self.stream:
            self.connect()
            self.follow()
            self.send()
            self.serve()
            self.receive()
            self.follow()

    def break_off(self):
        if not self.stream:
            return
        is_up, waiting = self.core.link is Link.UP, self.model.waiting()
        self.core.lost(self.random.choice(ERRORS), self.now)
        self.follow()
        if is_up:
            check(not any(asked.ends for asked in waiting), "a call ends that could wait for the next connection")
        check(is_up or all(asked.ends for asked in waiting), "a call waits after the attempt to connect failed")

    # -- the shell

    def follow(self):
        """Has the connection that the core says, and tells what has ended."""
        core = self.core
        if self.stream and (self.stream.epoch != core.epoch or core.link in (Link.NONE, Link.CLOSED)):
            self.stream = None
        if core.link is Link.OPENING and not self.stream:
            check(not self.model.streams or core.epoch > self.model.streams[-1].epoch, "an attempt has the number of another")
            self.stream = Stream(core.epoch)
            self.stream.last_use = self.now
            self.model.streams.append(self.stream)
        for call in core.finished:
            self.model.has_ended(call)
        core.finished.clear()
        for asked in self.model.asked:
            check(asked.ends or asked.deadline > self.ticked, "a call goes on after its deadline")
            check(asked.ends or core.due <= asked.deadline, "the core isn't told of a deadline")
        check(not self.idle or core.link is not Link.UP or core.due <= self.now + self.idle, "idleness isn't looked at")
        check(core.link is not Link.NONE or all(asked.ends for asked in self.model.asked), "a call waits for no connection")
        check(self.is_closed == (core.link is Link.CLOSED), "it is closed by itself, or not if told")

    def play(self):
        events = (self.begin, self.begin, self.cancel, self.wait, self.connect, self.connect, self.send, self.send, self.serve,
                  self.serve, self.receive, self.receive, self.bring_up, self.break_off, self.open, self.close, self.end)
        rare = (self.cancel, self.break_off, self.open, self.close, self.end)
        seldom = self.random.choice((0.1, 0.1, 0.4))
        weights = [self.random.choice(OFTEN) * (seldom if event in rare else 1) for event in events]
        for event in self.random.choices(events, weights, k=EVENTS):
            event()
            self.follow()
        self.settle()
        self.model.judge()

    # -- the end

    def settle(self):
        """Time goes on until all has ended; then the server serves, and each new call has its reply."""
        self.quiet()
        check(self.core.is_quiet(), "calls are under way for ever")
        for _ in range(0 if self.is_closed else 3):
            number = len(self.model.asked)
            call = self.ask(wire.request(wire.PUT, f"k{number}", wire.number_bytes(number)), self.now + 1000, True)
            for _ in range(4):
                self.serve_well()
            check(call.is_done and not isinstance(call.outcome, (NotMade, OutcomeOpen)), f"no reply: {call.outcome!r}")
        self.quiet()
        check(not self.idle or self.core.link is not Link.UP, "an idle connection stays")

    def serve_well(self):
        self.follow()
        if self.core.link is Link.OPENING:
            self.core.connected(self.now)
        if data := self.core.unsent():
            self.core.sent(len(data), self.now)
            self.model.went(self.stream, data, len(data), self.now)
        if self.stream:
            self.model.serve(self.stream, 1000, is_well=True)
            if data := self.stream.uncame():
                self.take(self.stream, data)
        self.follow()

    def quiet(self):
        """Enough time for each deadline passes."""
        end = self.now + 200
        while self.core.due <= end:
            self.now = max(self.now, self.core.due)
            self.tick()
        self.now = end


def fault_of(seed):
    """What is wrong with a seed; None if nothing is."""
    try:
        Played(seed).play()
        return None
    except Exception:
        return f"FAILED seed {seed}: {traceback.format_exc()}"


def faults_of(seeds):
    return [fault for fault in map(fault_of, seeds) if fault]


def ends_with(parent):
    """Ends this process once its parent has ended, which may be killed."""
    def look():
        while os.getppid() == parent:
            time.sleep(1)
        os._exit(1)
    threading.Thread(target=look, daemon=True).start()


def main():
    words = argparse.ArgumentParser(description=__doc__.splitlines()[0])
    words.add_argument("program", nargs="?", help="as the other tests have it; none is needed")
    words.add_argument("--seed", type=int, default=0, help="the first")
    words.add_argument("--seeds", type=int, default=12_000)
    words = words.parse_args()
    seeds = range(words.seed, words.seed + words.seeds)
    parts = [seeds[at:at + SEEDS_AT_A_TIME] for at in range(0, len(seeds), SEEDS_AT_A_TIME)]
    passed = failed = 0
    processors = len(os.sched_getaffinity(0))
    with concurrent.futures.ProcessPoolExecutor(processors, initializer=ends_with, initargs=(os.getpid(),)) as pool:
        for part, faults in zip(parts, pool.map(faults_of, parts)):
            passed, failed = passed + len(part) - len(faults), failed + len(faults)
            print("".join(faults[:max(0, 3 - failed + len(faults))]), end="", flush=True)
    print(f"{passed} passed, {failed} failed")
    return 1 if failed else 0


if __name__ == "__main__":
    sys.exit(main())
