"""Requests and replies, runs of the program, and the processes of servers."""
import concurrent.futures
import contextlib
import errno
import faulthandler
import os
import random
import resource
import select
import shutil
import signal
import socket
import struct
import subprocess
import sys
import tempfile
import time

from harness.frames import frame
from harness.plain import Function, Method, key_bytes, value_bytes

HOST = "127.0.0.1"
# Ports below those that the system gives to clients of its own choice.
PORTS = range(12000, 32000)
REPLY_SECONDS = 30
START_SECONDS = 60
RUN_SECONDS = 60
STOP_TURN_SECONDS = 0.001


class Dchm:
    """Get, Put of an Int, and Merge with SUM, as frames of a u16 length."""
    STATUSES = {"get": b"\x01", "put": b"\x00", "merge": b"\x01"}

    @staticmethod
    def request(kind, key, number=None):
        body = bytes([Method[kind]]) + key_bytes(key)
        if kind == "merge":
            body += bytes([Function.SUM])
        if kind != "get":
            body += value_bytes(number)
        return frame(body)

    @staticmethod
    def now(number):
        """The reply that says that a number is there now."""
        return b"\x00\x0a\x01\x01" + number.to_bytes(8, "big", signed=True)

    @staticmethod
    def is_whole(reply):
        return len(reply) >= 2 and len(reply) >= 2 + int.from_bytes(reply[:2], "big")

    @classmethod
    def number(cls, kind, reply):
        """The number that the reply tells; None if it is absent."""
        status = cls.STATUSES[kind]
        if len(reply) == 12 and reply[:4] == b"\x00\x0a" + status + b"\x01":
            return int.from_bytes(reply[4:], "big", signed=True)
        if kind != "merge" and reply == b"\x00\x02" + status + b"\x00":
            return None
        raise ValueError(f"reply to {kind}: {reply.hex(' ')}")


class Connection:
    """A blocking socket; what takes too long, a reply or that bytes are taken, raises BlockingIOError."""

    def __init__(self, protocol, place):
        self.protocol = protocol
        self.socket = connect_to(place)
        for option in (socket.SO_RCVTIMEO, socket.SO_SNDTIMEO):
            self.socket.setsockopt(socket.SOL_SOCKET, option, struct.pack("ll", REPLY_SECONDS, 0))

    def exchange(self, request):
        """Sends the request, and returns its whole reply."""
        self.socket.sendall(request)
        reply = b""
        while not self.protocol.is_whole(reply):
            more = self.socket.recv(4096)
            if not more:
                raise ConnectionError("the server ended the connection")
            reply += more
        return reply

    def ask(self, kind, request):
        """Sends the request, reads its whole reply, and returns the number that it tells."""
        return self.protocol.number(kind, self.exchange(request))

    def close(self):
        self.socket.close()


def free_port():
    """A port at which nothing listens, and which the system gives to no client."""
    while True:
        port = random.choice(PORTS)
        with contextlib.suppress(OSError), socket.socket() as listener:
            listener.bind((HOST, port))
            return port


def end_by_signal():
    """SIGTERM and SIGHUP end the script as an error does: what it started is stopped. SIGQUIT shows where it is."""
    faulthandler.register(signal.SIGQUIT)
    for number in (signal.SIGTERM, signal.SIGHUP):
        if signal.getsignal(number) != signal.SIG_IGN:
            signal.signal(number, lambda got, _: sys.exit(128 + got))


def stop(child):
    """Stops a process: none of its threads runs any more, until SIGCONT."""
    child.send_signal(signal.SIGSTOP)
    tasks = f"/proc/{child.pid}/task"
    while any(state_of(os.path.join(tasks, task, "stat")) != "T" for task in os.listdir(tasks)):
        time.sleep(STOP_TURN_SECONDS)


def state_of(path):
    with open(path, encoding="utf-8", errors="replace") as file:
        return file.read().rpartition(")")[2].split()[0]


@contextlib.contextmanager
def temporary_directory():
    directory = tempfile.mkdtemp(prefix="dchm-")
    try:
        yield directory
    finally:
        shutil.rmtree(directory, ignore_errors=True)


def run_program(program, *words, given=None, text=True, seconds=RUN_SECONDS, **options):
    """A run to its end of a program that is given nothing, or this: its status, standard output and standard error."""
    given_to_it = {"stdin": subprocess.DEVNULL} if given is None else {"input": given}
    ended = subprocess.run([program, *words], capture_output=True, text=text, errors="replace" if text else None,
                           timeout=seconds, **given_to_it, **options)
    return ended.returncode, ended.stdout, ended.stderr


def play_script(program, lines, words=("sim",)):
    """What `dchm sim`, or another program, prints behind the numbers of these lines; else its status, and why."""
    with temporary_directory() as room:
        path = os.path.join(room, "script")
        with open(path, "w", encoding="utf-8") as script:
            script.writelines(line + "\n" for line in lines)
        status, printed, said = run_program(program, *words, path)
    return [line.partition(" ")[2] for line in printed.splitlines()] if status == 0 else [f"status {status}: {said}"]


@contextlib.contextmanager
def process(words, errors, limits=(), environment=None, directory=None):
    """A process that is stopped at the end; its standard error goes to a file, which is shown after an error.

    `limits` are pairs of a resource and its limit. SIGXFSZ stays ignored, so that a write past a limit fails.
    `environment` and `directory`, where it runs, are the script's own if left out.
    """
    def limit():
        for kind, most in limits:
            resource.setrlimit(kind, (most, most))

    with open(errors, "ab") as file:
        child = subprocess.Popen(words, stdin=subprocess.DEVNULL, stdout=subprocess.PIPE, stderr=file, cwd=directory,
                                 preexec_fn=limit if limits else None, restore_signals=False, env=environment)
    try:
        yield child
    except BaseException:
        with open(errors, encoding="utf-8", errors="replace") as file:
            print(f"{words[0]}, standard error:\n{file.read()}", file=sys.stderr, end="")
        raise
    finally:
        with child.stdout:
            child.terminate()
            try:
                child.wait(10)
            except subprocess.TimeoutExpired:
                child.kill()
                child.wait()


def kill(child):
    """Kills a process, and waits until it has ended."""
    child.kill()
    child.wait()


def first_line(child):
    """What the process prints first; nothing if it prints nothing in time."""
    ready, _, _ = select.select([child.stdout], [], [], START_SECONDS)
    return child.stdout.readline() if ready else b""


def init(program, directory, *words):
    """Makes the directory, and an empty map in it."""
    os.mkdir(directory)
    subprocess.run([program, "init", directory, *words], check=True, stdout=subprocess.DEVNULL)


@contextlib.contextmanager
def dchm(program, directory, workers, words=(), limits=(), environment=None):
    """`dchm serve` once it has said that it listens: the process and its port."""
    port, errors = free_port(), directory + ".errors"
    line = [program, "serve", directory, "--port", str(port), "--workers", str(workers), *words]
    with process(line, errors, limits, environment) as child:
        said = first_line(child)
        if said != b"listening %d\n" % port:
            raise RuntimeError(f"dchm serve said {said!r}")
        yield child, port


@contextlib.contextmanager
def dchm_at_socket(program, directory, workers, path, words=(), limits=(), environment=None):
    """`dchm serve` at a Unix socket, once it has said that it listens: the process and the path."""
    line = [program, "serve", directory, "--socket", path, "--workers", str(workers), *words]
    with process(line, directory + ".errors", limits, environment) as child:
        said = first_line(child)
        if said != b"listening %s\n" % path.encode():
            raise RuntimeError(f"dchm serve said {said!r}")
        yield child, path


@contextlib.contextmanager
def redis(program, directory, path=None):
    """`redis-server`, each change synced, once it takes a connection: the process, and its port or socket's path."""
    os.mkdir(directory)
    port, errors = free_port(), directory + ".errors"
    line = [program, "--bind", HOST, "--port", str(port), "--dir", directory, "--daemonize", "no", "--loglevel",
            "warning", "--logfile", errors, "--appendonly", "yes", "--appendfsync", "always", "--save", ""]
    if path:
        line += ["--unixsocket", path, "--unixsocketperm", "600"]
    with process(line, errors) as child:
        end = time.monotonic() + START_SECONDS
        while not takes_connections(path or port):
            if child.poll() is not None or time.monotonic() > end:
                raise RuntimeError("redis-server takes no connection")
            time.sleep(0.02)
        yield child, path or port


def connect_to(place):
    """A socket that is connected to a port of this machine, or to the Unix socket of a path."""
    if isinstance(place, int):
        client = socket.create_connection((HOST, place))
        client.setsockopt(socket.IPPROTO_TCP, socket.TCP_NODELAY, 1)
        return client
    client = socket.socket(socket.AF_UNIX)
    try:
        client.connect(place)
    except OSError:
        client.close()
        raise
    return client


def fill_backlog(listener):
    """Connections that wait at a listener that takes none, as many as find room there; or they are tried, at a port."""
    waiting = []
    while True:
        client = socket.socket(listener.family)
        client.setblocking(False)
        waiting.append(client)
        try:
            client.connect(listener.getsockname())
        except BlockingIOError as error:
            # At a port no connection is there at once: of five tried at least one finds no room.
            if error.errno == errno.EAGAIN or len(waiting) == 5:
                return waiting


def send_to_end(client, pieces):
    """Sends the pieces, and then no more, unless the server has ended the connection. So too if no piece can be made."""
    with contextlib.suppress(OSError):
        try:
            for piece in pieces:
                client.sendall(piece)
        finally:
            client.shutdown(socket.SHUT_WR)


def read_to_end(client):
    """What the server sends until it ends the connection."""
    content = b""
    with contextlib.suppress(ConnectionError):
        while more := client.recv(65536):
            content += more
    return content


def replies_at(place, pieces):
    """What the server replies to these pieces over a connection of their own. It is read while they are sent."""
    with contextlib.closing(Connection(Dchm, place)) as connection:
        with concurrent.futures.ThreadPoolExecutor(1) as sender:
            sent = sender.submit(send_to_end, connection.socket, pieces)
            replies = read_to_end(connection.socket)
            sent.result()
            return replies


def takes_connections(place):
    try:
        connect_to(place).close()
        return True
    except OSError:
        return False
