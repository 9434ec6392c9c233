"""What the tests of the clients for Python share: the servers, and the requests and replies of docs/PROTOCOL.md."""
import contextlib
import os
import random
import re
import socket
import sys
import threading
import time

import dchm
from dchm import wire
from harness import frames, plain, servers, suite
from harness.places import PROTOCOL_PAGE, STAND_IN, read

PROGRAM = suite.named_program()
# Seconds of which no slow machine comes near, and seconds for what never comes.
LONG, SHORT = 120, 1
PATIENT = {"timeout": LONG, "connect_timeout": LONG, "idle": LONG}
MOST_TURNS = 1200
# How many threads the real server has, and the option with which it serves one connection at a time.
WORKERS = 4
ALONE = ("--connections", "1")
ROW = re.compile(r"\| `([0-9A-F]{4}[0-9A-F ]*)` \| `([0-9A-F]{4}[0-9A-F ]*)` \|")


@contextlib.contextmanager
def real_process(*words):
    """As real: its process and its port."""
    with servers.temporary_directory() as room:
        directory = os.path.join(room, "map")
        servers.init(PROGRAM, directory)
        with servers.dchm(PROGRAM, directory, WORKERS, words) as (child, port):
            yield child, port


@contextlib.contextmanager
def real(*words):
    """The real server over an empty map, with these options: its port."""
    with real_process(*words) as (_, port):
        yield port


@contextlib.contextmanager
def real_at_socket():
    """The real server over an empty map at a Unix socket: its path."""
    with servers.temporary_directory() as room:
        directory = os.path.join(room, "map")
        servers.init(PROGRAM, directory)
        with servers.dchm_at_socket(PROGRAM, directory, WORKERS, os.path.join(room, "socket")) as (_, path):
            yield path


class StandIn:
    """The stand-in: its address, and what it got."""

    def __init__(self, room, address):
        self.room, self.address = room, address

    def frames(self, kind):
        with open(os.path.join(self.room, "journal"), encoding="ascii") as journal:
            return [words[2] for words in map(str.split, journal) if words[0] == kind]

    def received(self, frame):
        return self.frames("got").count(frame.hex().upper())

    def connections(self):
        """The numbers of the connections over which requests came."""
        with open(os.path.join(self.room, "journal"), encoding="ascii") as journal:
            return {line.split()[1] for line in journal}


@contextlib.contextmanager
def stand_in(*rules, unix=False):
    with servers.temporary_directory() as room:
        path = os.path.join(room, "socket")
        words = [sys.executable, STAND_IN, "--journal", os.path.join(room, "journal"), *(["--unix", path] if unix else [])]
        with servers.process([*words, *rules], os.path.join(room, "errors")) as child:
            said = servers.first_line(child).decode()
            if not said.startswith("listening "):
                raise RuntimeError(f"the stand-in said {said!r}")
            yield StandIn(room, path if unix else int(said.split()[1]))


def get_frame(key):
    return wire.request(wire.GET, key)


def put_frame(key, value):
    return wire.request(wire.PUT, key, wire.value_bytes(value))


def sum_frame(key):
    return wire.function_request(wire.MERGE, key, dchm.SUM, wire.value_bytes(1))


def rows():
    """The requests and replies in hexadecimal that the page of the protocol shows."""
    lines = read(PROTOCOL_PAGE).splitlines()
    return [tuple(bytes.fromhex(cell) for cell in found.groups()) for found in map(ROW.search, lines) if found]


def told(reply):
    """What a reply says, by the plain reading: a value, a bool, or the class of an exception."""
    content = plain.Bytes(reply, 2)
    status, value = content.number(1), content.value(may_be_absent=True)
    if status < 3:
        return value == 1 if status == 2 else value
    return {1: TypeError, 2: ValueError, 3: OverflowError}[value] if status == 3 else dchm.Refused


def name_of(method):
    """The name of a method in the clients."""
    name = re.sub("[A-Z]", lambda letter: "_" + letter[0].lower(), plain.Method(method).name)
    return "contains" if name == "contains_key" else name


def request_of(body):
    """The method, the key and the arguments of a request, as the clients take them."""
    method, key, arguments = frames.request_of(body)
    if method in (*plain.COMPUTE, plain.Method.merge, plain.Method.reduce):
        arguments = (dchm.Function(arguments[0]), *arguments[1:])
    return method, key, arguments


READY = b"\0\2\1\0"


class Peer:
    """A listener of this process at a port: what it does with each connection is the test's own."""

    def __init__(self, serve):
        self.serve, self.got, self.sockets = serve, [], []
        self.listener = socket.create_server((servers.HOST, 0))
        # Little fits into a socket that isn't read.
        self.listener.setsockopt(socket.SOL_SOCKET, socket.SO_RCVBUF, 65_536)
        self.port = self.listener.getsockname()[1]
        threading.Thread(target=self.accept, daemon=True).start()

    def accept(self):
        with contextlib.suppress(OSError):
            while True:
                client, _ = self.listener.accept()
                self.sockets.append(client)
                threading.Thread(target=self.guarded, args=(client,), daemon=True).start()

    def guarded(self, client):
        with contextlib.suppress(OSError, ValueError):
            self.serve(self, client)

    def frame(self, client):
        """The next request, which is noted."""
        head = client.recv(2, socket.MSG_WAITALL)
        if len(head) < 2:
            raise ConnectionError
        found = head + client.recv(int.from_bytes(head, "big"), socket.MSG_WAITALL)
        self.got.append(found)
        return found

    def __enter__(self):
        return self

    def __exit__(self, *_):
        # A thread in accept() keeps the listener open: this wakes it.
        with contextlib.suppress(OSError):
            self.listener.shutdown(socket.SHUT_RDWR)
        self.listener.close()
        for client in self.sockets:
            client.close()


def silent(peer, client):
    """Answers the first request of a connection, and then none, though it reads them all."""
    peer.frame(client)
    client.sendall(READY)
    while True:
        peer.frame(client)


def deaf(peer, client):
    """Answers the first request of a connection, and then reads nothing."""
    peer.frame(client)
    client.sendall(READY)
    threading.Event().wait()


def replying(reply):
    """Answers the first request of a connection, and each other one with this."""
    def serve(peer, client):
        peer.frame(client)
        client.sendall(READY)
        while True:
            peer.frame(client)
            client.sendall(reply)
    return serve


class Proxy:
    """Stands between client and server: hands on in pieces, waits now and then, and cuts."""

    def __init__(self, port, seed):
        self.port, self.random = port, random.Random(seed)

    def __call__(self, peer, client):
        with servers.connect_to(self.port) as server:
            way = threading.Thread(target=self.pump, args=(server, client), daemon=True)
            way.start()
            self.pump(client, server)
            way.join()

    def pump(self, one, other):
        with contextlib.suppress(OSError):
            while data := one.recv(self.random.choice((1, 7, 4096))):
                if self.random.random() < 0.02:
                    data = data[:self.random.randrange(len(data))]
                    other.sendall(data)
                    break
                time.sleep(self.random.choice((0, 0, 0.001)))
                other.sendall(data)
        for each in (one, other):
            with contextlib.suppress(OSError):
                each.shutdown(socket.SHUT_RDWR)
