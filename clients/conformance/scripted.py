"""A peer that serves a map in memory as its script says: the class behind `peer`, which `check` uses too.

Script lines, whose words are those of a shell. Empty lines, and those that begin with `#`, are passed over:

    map KEY VALUE              the map has this at first; a value is `i5`, or `t` and a text
    full [N]                   the next connection, or the next N, are ended at once
    mute [N]                   the next connection, or the next N, are accepted and get no reply
    METHOD KEY ACTION [N]      for the first request of this method and key, and then no more; of the whole map KEY is `-`

    drop, reset      makes the change; ends the connection without its reply, by an end or by a reset
    unmade           ends the connection; the change is never made
    late             makes the change once the client has ended the connection
    cut N, torn N    makes the change; sends the first N bytes of its reply, and then an end or a reset
    quit, crash      makes the change and answers it, and then an end or a reset
    bad              answers 86 and ends; neither it nor anything behind it is made
    failed           makes the change; answers 89 and ends; nothing behind it is made
    failed_on        the same, and makes all that was sent behind it
    full             answers 87; the change isn't made, and the connection goes on
    spent            answers 8A, as `full`
    stall            makes the change; answers neither it nor what follows
    held             makes the change; answers once any connection has asked for the key `release`
    bytewise         makes the change; sends its reply byte by byte
    garbled          makes the change; sends bytes that are no reply

A `get` of the empty key is answered as any other, so a client may begin with it. After an end the peer reads on, and drops
what it reads, so that its replies arrive.
"""
import contextlib
import os
import shlex
import socket
import sys
import threading

HERE = os.path.dirname(os.path.abspath(__file__))
sys.path.insert(0, os.path.join(HERE, "..", "..", "tests"))

from harness import frames, plain  # noqa: E402
from harness.plain import Method  # noqa: E402
from harness.words import value_in  # noqa: E402
from stand_in import FAILED, GARBLED, LINGER_NOT, NO_MEMORY, RELEASE  # noqa: E402

BAD_FRAME = frames.refusal_bytes(plain.BAD_FRAME)
TICKETS_SPENT = frames.refusal_bytes(10)
# What an action answers in place of a request that isn't made, after which the connection goes on.
REFUSALS = {"full": NO_MEMORY, "spent": TICKETS_SPENT}
WITH_NUMBER = ("cut", "torn")
ACTIONS = {"drop", "reset", "unmade", "late", "quit", "crash", "bad", "failed", "failed_on", "stall", "held", "bytewise",
           "garbled", *REFUSALS, *WITH_NUMBER}
BY_RESET = ("reset", "torn", "crash")
# Those whose reply is sent as it is.
WHOLE = (None, "quit", "crash", "held", "bytewise")
# Within how many seconds a connection is read on that has ended.
DRAIN_SECONDS = 10
# So long is waited for what a client sends together.
REST_SECONDS = 0.3
AT_ONCE = 128
SETTLE_SECONDS = 1


class Misuse(Exception):
    """A line that is none of a script."""


class Script:
    """What stands in the map at first, what becomes of connections, and the rules that still hold."""

    def __init__(self, lines):
        self.entries, self.rules, self.connections = {}, {}, []
        for number, line in enumerate(lines, 1):
            if not line.strip() or line.startswith("#"):
                continue
            try:
                self.add(*shlex.split(line))
            except (KeyError, TypeError, ValueError, IndexError) as error:
                raise Misuse(f"line {number}: {line.strip()}: {error}") from None

    def add(self, word, *words):
        if word == "map":
            key, value = words
            self.entries[key] = value_in(value)
        elif word in ("full", "mute") and len(words) < 2:
            self.connections += [word] * int(words[0] if words else 1)
        else:
            key, action, *count = words
            if action not in ACTIONS or len(count) != (action in WITH_NUMBER):
                raise ValueError("no such action")
            self.rules[Method[word], None if Method[word] in plain.WHOLE_MAP else key] = action, *map(int, count)


class Peer:
    """The peer: its map, and what it got and sent. It listens while the block is left."""

    def __init__(self, lines, place=0, journal=None):
        self.script, self.lock, self.released = Script(lines), threading.Lock(), threading.Event()
        self.map = plain.Running()
        self.map.entries.update(self.script.entries)
        self.journal, self.written, self.talks, self.answers = [], journal, [], {}
        self.listener = socket.socket(socket.AF_INET if isinstance(place, int) else socket.AF_UNIX)
        if isinstance(place, int):
            self.listener.setsockopt(socket.SOL_SOCKET, socket.SO_REUSEADDR, 1)
        self.listener.bind(("127.0.0.1", place) if isinstance(place, int) else place)
        self.listener.listen(AT_ONCE)
        self.place = self.listener.getsockname()[1] if isinstance(place, int) else place

    def __enter__(self):
        threading.Thread(target=self.serve, daemon=True).start()
        return self

    def __exit__(self, *_):
        with contextlib.suppress(OSError):
            self.listener.shutdown(socket.SHUT_RDWR)
        self.listener.close()

    def serve(self):
        """Takes connections up until it is closed."""
        with contextlib.suppress(OSError):
            while True:
                client, _ = self.listener.accept()
                talking = threading.Thread(target=Dialogue(self, len(self.talks), client).run, daemon=True)
                self.talks.append(talking)
                talking.start()

    def settle(self):
        """Waits a little until all that the client has sent over connections that are over was read."""
        for talking in self.talks:
            talking.join(SETTLE_SECONDS)

    def note(self, kind, number, frame):
        with self.lock:
            self.journal.append((kind, number, frame))
            if self.written:
                print(kind, number, frame.hex().upper(), file=self.written, flush=True)

    def forget(self):
        """Forgets what it got and sent."""
        with self.lock:
            self.journal.clear()
            self.answers.clear()

    def received(self, frame):
        """How often it got this request."""
        with self.lock:
            return sum(kind == "got" and it == frame for kind, _, it in self.journal)

    def next_connection(self):
        with self.lock:
            return self.script.connections.pop(0) if self.script.connections else None

    def action_on(self, body):
        """What a rule says of this request; the rule is used up."""
        try:
            method, key, _ = frames.request_of(body)
        except plain.Refused:
            return None, ()
        if (method, key) == RELEASE:
            self.released.set()
        with self.lock:
            action, *count = self.script.rules.pop((method, key), (None,))
            return action, count

    def made(self, body):
        """The reply to a request, which is made."""
        with self.lock:
            try:
                return frames.reply_bytes(*self.map.call(frames.request_of(body)))
            except plain.Refused as refused:
                return frames.refusal_bytes(refused.number)


class Over(Exception):
    """The connection is over; it is ended by a reset, or in order."""

    def __init__(self, is_reset=False):
        super().__init__()
        self.is_reset = is_reset


class Dialogue:
    """A connection of the peer."""

    def __init__(self, peer, number, client):
        self.peer, self.number, self.client = peer, number, client
        if client.family == socket.AF_INET:
            client.setsockopt(socket.IPPROTO_TCP, socket.TCP_NODELAY, 1)
        self.unread = b""

    def run(self):
        with contextlib.suppress(OSError):
            try:
                self.talk()
            except Over as over:
                self.end(over.is_reset)
        self.client.close()

    def talk(self):
        """Answers request after request, until it is over."""
        match self.peer.next_connection():
            case "full":
                raise Over
            case "mute":
                self.read_on()
                return
        while body := self.body():
            self.answer(body)

    def end(self, is_reset):
        if is_reset:
            self.client.setsockopt(socket.SOL_SOCKET, socket.SO_LINGER, LINGER_NOT)
            return
        self.client.shutdown(socket.SHUT_WR)
        self.client.settimeout(DRAIN_SECONDS)
        self.read_on()

    def read_on(self):
        """Takes note of what the client sends, and makes none of it, until it ends the connection."""
        while self.body():
            pass

    def has(self, count):
        """Whether so many bytes are in hand, once they have come."""
        while len(self.unread) < count:
            more = self.client.recv(1 << 16)
            if not more:
                return False
            self.unread += more
        return True

    def body(self):
        """The body of the next request; nothing at the end of the stream. A length that is refused ends the connection."""
        if not self.has(2):
            return b""
        length = int.from_bytes(self.unread[:2], "big")
        if not 1 <= length <= plain.FRAME_LIMIT:
            self.client.sendall(BAD_FRAME)
            raise Over
        if not self.has(2 + length):
            return b""
        frame, self.unread = self.unread[:2 + length], self.unread[2 + length:]
        self.peer.note("got", self.number, frame)
        return frame[2:]

    def send(self, frame):
        self.peer.note("sent", self.number, frame)
        self.client.sendall(frame)

    def answer(self, body):
        """Answers a request, or does what a rule says."""
        action, count = self.peer.action_on(body)
        if action in REFUSALS:
            self.send(REFUSALS[action])
        elif action in ("unmade", "late"):
            self.leave(action, body)
        elif action == "bad":
            self.send(BAD_FRAME)
            raise Over
        else:
            self.answer_made(body, action, count, self.peer.made(body))

    def leave(self, action, body):
        if action == "late":
            self.read_on()
            self.peer.made(body)
        raise Over

    def answer_made(self, body, action, count, reply):
        """What becomes of the reply to a request that was made."""
        match action:
            case "stall":
                self.read_on()
                raise Over
            case "held":
                self.peer.released.wait()
            case "failed_on":
                self.make_the_rest()
        if action in WHOLE:
            self.peer.answers[frames.frame(body)] = reply
        sent = {"drop": b"", "reset": b"", "failed": FAILED, "failed_on": FAILED, "garbled": GARBLED}.get(action, reply)
        sent = sent[:count[0]] if count else sent
        for piece in [bytes([byte]) for byte in sent] if action == "bytewise" else [sent] if sent else []:
            self.send(piece)
        if action not in (None, "held", "bytewise", "garbled"):
            raise Over(action in BY_RESET)
        if reply == BAD_FRAME:
            raise Over

    def make_the_rest(self):
        """Makes what stands in hand behind a request; what comes later isn't."""
        self.client.settimeout(REST_SECONDS)
        with contextlib.suppress(TimeoutError):
            while body := self.body():
                self.peer.made(body)
        self.client.settimeout(None)
