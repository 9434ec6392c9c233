#!/usr/bin/env python3
"""A server that stalls, breaks off and lies where a test says so: tests/stand_in.py [--unix PATH] [--journal FILE] [RULE..]

It serves the map of `harness.plain`, in memory, to any number of connections, at a port that the system chooses or at a
Unix socket. It prints `listening PORT` or `listening PATH`. A RULE is `METHOD KEY ACTION [N]` in the words of a shell,
such as `merge a drop`.
It holds for the first request of this method and key, and then no more; for a method of the whole map, KEY may be any:

    drop      makes the change; ends the connection without a reply
    reset     the same, and what was under way is lost too
    unmade    ends the connection; the change is never made
    late      makes the change once the client has ended the connection
    stall     makes the change; answers neither it nor what follows
    held      makes the change; answers once any connection has asked for the key `release`
    failed    makes the change; answers 89 and ends the connection
    full      answers 87; the change isn't made
    cut       makes the change; sends the first N bytes of the reply and ends the connection
    bytewise  makes the change; sends its reply byte by byte
    garbled   makes the change; sends bytes that are no reply
    twice     makes the change; sends its reply twice
    quit      makes the change; answers and ends the connection

The journal has a line for each frame: `got` or `sent`, the number of the connection, and the frame in hexadecimal.
"""
import argparse
import itertools
import shlex
import socket
import struct
import threading

from harness import frames, plain
from harness.plain import Method

FAILED, NO_MEMORY = frames.refusal_bytes(plain.FAILED), frames.refusal_bytes(plain.NO_MEMORY)
# A reply with a kind of value that there isn't.
GARBLED = b"\x00\x02\x01\x07"
RELEASE = (Method.get, "release")
MADE_AND_ENDED = ("drop", "reset")
NOT_MADE = ("unmade", "late", "full")
LINGER_NOT = struct.pack("ii", 1, 0)


class StandIn:
    """The map, the rules that still hold, and the journal."""

    def __init__(self, rules, journal):
        self.map, self.lock, self.released = plain.Running(), threading.Lock(), threading.Event()
        self.rules = {}
        for rule in rules:
            method, key, action, *count = shlex.split(rule)
            named = Method[method], None if Method[method] in plain.WHOLE_MAP else key
            self.rules[named] = action, int(count[0]) if count else 0
        self.journal = open(journal, "a", encoding="ascii") if journal else None

    def note(self, kind, number, frame):
        if self.journal:
            with self.lock:
                self.journal.write(f"{kind} {number} {frame.hex().upper()}\n")
                self.journal.flush()

    def action_on(self, body):
        """What a rule says of this request; the rule is used up."""
        try:
            method, key, _ = frames.request_of(body)
        except plain.Refused:
            return None, 0
        if (method, key) == RELEASE:
            self.released.set()
        with self.lock:
            return self.rules.pop((method, key), (None, 0))

    def made(self, body):
        """The reply to a request, which is made."""
        with self.lock:
            try:
                return frames.reply_bytes(*self.map.call(frames.request_of(body)))
            except plain.Refused as refused:
                return frames.refusal_bytes(refused.number)


class Served:
    """A connection."""

    def __init__(self, stand_in, number, client):
        self.stand_in, self.number, self.client = stand_in, number, client
        self.stream = client.makefile("rb")

    def run(self):
        try:
            while (body := self.body()) and self.answers(body):
                pass
        except OSError:
            pass  # the client is gone
        finally:
            self.stream.close()
            self.client.close()

    def body(self):
        head = self.stream.read(2)
        body = self.stream.read(int.from_bytes(head, "big")) if len(head) == 2 else b""
        if head == b"\0\0":
            self.send(frames.refusal_bytes(plain.BAD_FRAME))
        elif body:
            self.stand_in.note("got", self.number, head + body)
        return body

    def send(self, frame):
        self.stand_in.note("sent", self.number, frame)
        self.client.sendall(frame)

    def until_the_client_ends(self):
        while self.stream.read(1):
            pass

    def answers(self, body):
        """Answers a request, or does what a rule says; returns whether the connection goes on."""
        action, count = self.stand_in.action_on(body)
        if action in NOT_MADE:
            return self.leaves(action, body)
        reply = self.stand_in.made(body)
        if action is None:
            self.send(reply)
            return reply[2] != 0x80 + plain.BAD_FRAME
        if action in MADE_AND_ENDED:
            if action == "reset":
                self.client.setsockopt(socket.SOL_SOCKET, socket.SO_LINGER, LINGER_NOT)
            return False
        return self.deforms(action, count, reply)

    def leaves(self, action, body):
        if action == "full":
            self.send(NO_MEMORY)
        elif action == "late":
            self.until_the_client_ends()
            self.stand_in.made(body)
        return action == "full"

    def deforms(self, action, count, reply):
        if action == "stall":
            self.until_the_client_ends()
        elif action == "held":
            self.stand_in.released.wait()
            self.send(reply)
        elif action == "bytewise":
            for byte in reply:
                self.send(bytes([byte]))
        else:
            sent = {"failed": FAILED, "cut": reply[:count], "garbled": GARBLED, "twice": 2 * reply, "quit": reply}
            self.send(sent[action])
        return action in ("held", "bytewise", "garbled", "twice")


def main():
    words = argparse.ArgumentParser()
    words.add_argument("--unix")
    words.add_argument("--journal")
    words.add_argument("rules", nargs="*")
    words = words.parse_args()
    stand_in = StandIn(words.rules, words.journal)
    with socket.socket(socket.AF_UNIX if words.unix else socket.AF_INET) as listener:
        listener.bind(words.unix or ("127.0.0.1", 0))
        listener.listen(128)
        print("listening", words.unix or listener.getsockname()[1], flush=True)
        for number in itertools.count():
            client, _ = listener.accept()
            if not words.unix:
                client.setsockopt(socket.IPPROTO_TCP, socket.TCP_NODELAY, 1)
            threading.Thread(target=Served(stand_in, number, client).run, daemon=True).start()


if __name__ == "__main__":
    main()
