"""A volume of GlusterFS on one machine that plays several: three bricks in a network namespace, and two mounts, each in a
namespace of its own, whose link to the bricks is taken down and brought back. And the servers over it.

What is started and mounted ends with the stack of contexts that it was started under.
"""
import contextlib
import glob
import os
import select
import shutil
import signal
import socket
import struct
import subprocess
import time

from measuring import counters, servers

VOLUME, BRICKS = "map", 3
FIRST, SECOND = MACHINES = ("first", "second")
NETWORK = "10.213.77."
BRICKS_ADDRESS = NETWORK + "1"
ADDRESSES = {FIRST: NETWORK + "2", SECOND: NETWORK + "3"}
FENCE = "client.strict-locks"
# What docs/REPLICATION.md asks for: the fence, marks at once for a brick that lacks a write, no cache that another machine's
# changes would leave stale, and how soon a machine that is gone is given up by the others, and by the bricks.
OPTIONS = {
    FENCE: "on",
    "cluster.eager-lock": "off",
    "performance.write-behind": "off",
    "performance.stat-prefetch": "off",
    "performance.quick-read": "off",
    "performance.io-cache": "off",
    "performance.read-ahead": "off",
    "performance.open-behind": "off",
    "network.ping-timeout": "5",
    "server.tcp-user-timeout": "5",
    "server.keepalive-time": "3",
    "server.keepalive-interval": "1",
    "server.keepalive-count": "3",
}
MOUNTED_WITH = ("--attribute-timeout=0", "--entry-timeout=0")
# What it asks for besides: the kernel keeps no bytes of a file.
DIRECTLY = "--direct-io-mode=enable"
LOOK_SECONDS = 0.05
# How many times it is looked for what has to come, once in LOOK_SECONDS.
MOST_LOOKS = 2400
KEY = b"key"
WAITS = "waiting for the lock of"
WORDS = ("glusterd", "gluster", "glusterfs", "ip", "nsenter", "ss", "umount")


def lacks():
    """What isn't there, of what has to be."""
    missing = [word for word in WORDS if not shutil.which(word)]
    return missing + ([] if os.path.exists("/dev/fuse") else ["/dev/fuse"]) + ([] if os.geteuid() == 0 else ["root"])


def run(*words):
    """A command that has to succeed, and what it printed."""
    ended = subprocess.run(words, stdin=subprocess.DEVNULL, capture_output=True, timeout=120, text=True)
    if ended.returncode:
        raise RuntimeError(f"{' '.join(words)}: {ended.stdout}{ended.stderr}")
    return ended.stdout


def comes(holds, looks=MOST_LOOKS):
    """Whether it comes within so many looks."""
    for _ in range(looks):
        if holds():
            return True
        time.sleep(LOOK_SECONDS)
    return False


def await_that(what, holds):
    if not comes(holds):
        raise RuntimeError(f"it doesn't come: {what}")


class Network:
    """A namespace for the bricks and one for each machine, of which nothing leads to the machine's own network."""

    def __init__(self, stack):
        self.names = {name: f"dchm-{name}-{os.getpid()}" for name in ("bricks", *MACHINES)}
        for name in self.names.values():
            run("ip", "netns", "add", name)
            stack.callback(run, "ip", "netns", "delete", name)
        for name in self.names:
            self.ip(name, "link", "set", "lo", "up")
        for machine in MACHINES:
            self.connect(machine)

    def connect(self, machine):
        run("ip", "link", "add", machine, "netns", self.names["bricks"], "type", "veth",
            "peer", "name", "wire", "netns", self.names[machine])
        for name, link, address, other in (("bricks", machine, BRICKS_ADDRESS, ADDRESSES[machine]),
                                           (machine, "wire", ADDRESSES[machine], BRICKS_ADDRESS)):
            self.ip(name, "addr", "add", address, "peer", other, "dev", link)
            self.ip(name, "link", "set", link, "up")

    def ip(self, name, *words):
        run("ip", "-n", self.names[name], *words)

    def within(self, name, *words):
        return ("nsenter", "--net=/run/netns/" + self.names[name], *words)

    def end_connection(self, machine, port):
        """Ends the machine's connections to this port of the bricks, of which it makes new ones."""
        run(*self.within(machine, "ss", "-K", "dst", BRICKS_ADDRESS, "dport", "=", port))

    def cut(self, machine):
        self.ip(machine, "link", "set", "wire", "down")

    def mend(self, machine):
        self.ip(machine, "link", "set", "wire", "up")


class Mount:
    """The volume as a machine has it: the process behind it, which can be stopped and killed, and its place."""

    def __init__(self, network, room, machine, words):
        self.point = os.path.join(room, machine)
        os.makedirs(self.point, exist_ok=True)
        self.log = os.path.join(room, "logs", machine)
        self.line = network.within(machine, "glusterfs", "-N", "--volfile-server=" + BRICKS_ADDRESS, "--volfile-id=" + VOLUME,
                                   "--log-file=" + self.log, *words, self.point)
        self.start()

    def start(self):
        self.life = contextlib.ExitStack()
        self.process = self.life.enter_context(servers.process(self.line, self.log + ".errors"))
        self.life.callback(self.unmount)
        await_that("the mount", lambda: os.path.ismount(self.point))

    def end(self):
        # One that is stopped would hear no other signal.
        self.process.send_signal(signal.SIGCONT)
        self.life.close()

    def again(self):
        """Another mount at the same place, which has nothing of this one."""
        self.end()
        self.start()

    def unmount(self):
        if subprocess.run(["umount", self.point], capture_output=True, timeout=120).returncode:
            subprocess.run(["umount", "-l", self.point], capture_output=True, timeout=120)

    def is_at_all(self):
        return all(self.is_connected(number) for number in range(BRICKS))

    def is_connected(self, number):
        """Whether it has a connection to that brick, as a file of its own says."""
        try:
            with open(f"{self.point}/.meta/graphs/active/{VOLUME}-client-{number}/private", encoding="utf-8") as file:
                return "connected = 1" in file.read()
        except OSError:
            return False


class Volume:
    """A volume of three replicas with these options, and its two mounts, which have these words besides MOUNTED_WITH."""

    def __init__(self, stack, room, network, options, *words):
        self.room, self.network = room, network
        work, self.run_files, logs, place = (os.path.join(room, name) for name in ("work", "run", "logs", "socket"))
        for directory in (work, self.run_files, logs):
            os.mkdir(directory)
        settings = {"working-directory": work, "run-directory": self.run_files, "glusterd-sockfile": place,
                    "cluster-test-mode": logs}
        line = [word for name, value in settings.items() for word in ("--xlator-option", f"management.{name}={value}")]
        line += ["--pid-file", os.path.join(room, "pid"), "--log-file", os.path.join(logs, "glusterd.log")]
        self.line = ("gluster", "--mode=script", "--glusterd-sock=" + place)
        stack.enter_context(servers.process([*network.within("bricks", "glusterd", "-N"), *line], os.path.join(logs, "out")))
        await_that("glusterd", lambda: self.succeeds("pool", "list"))
        self.bricks = [os.path.join(room, f"brick{number}") for number in range(BRICKS)]
        self.gluster("create", "replica", str(BRICKS), *(f"{BRICKS_ADDRESS}:{brick}" for brick in self.bricks), "force")
        for option, value in options.items():
            self.gluster("set", option, value)
        self.gluster("start")
        stack.callback(self.end)
        self.mounts = {machine: self.mount(stack, machine, words) for machine in MACHINES}

    def succeeds(self, *words):
        return not subprocess.run([*self.line, *words], capture_output=True, timeout=120).returncode

    def gluster(self, word, *words):
        return run(*self.line, "volume", word, VOLUME, *words)

    def mount(self, stack, machine, words):
        mount = Mount(self.network, self.room, machine, (*MOUNTED_WITH, *words))
        stack.callback(mount.end)
        return mount

    def pids(self, kind="vols"):
        """The processes that the volume has: its bricks; of the kind `shd` what heals them."""
        for name in sorted(glob.glob(f"{self.run_files}/{kind}/{VOLUME}/*.pid")):
            with contextlib.suppress(OSError, ValueError):
                with open(name, encoding="utf-8") as file:
                    pid = int(file.read())
                with open(f"/proc/{pid}/cmdline", encoding="utf-8") as file:
                    if self.room in file.read():
                        yield pid

    def part(self, machine, number):
        """Ends the connection of one machine to one brick. Both live, and a new one is made."""
        with open(f"/proc/{list(self.pids())[number]}/cmdline", encoding="utf-8") as file:
            words = file.read().split("\0")
        self.network.end_connection(machine, words[words.index("--brick-port") + 1])
        await_that("a connection that has ended", lambda: not self.mounts[machine].is_connected(number))

    def kill_brick(self, number):
        os.kill(list(self.pids())[number], signal.SIGKILL)
        await_that("a brick that has ended", lambda: len(list(self.pids())) < BRICKS)

    def start_bricks(self):
        await_that("all bricks", lambda: self.gluster("start", "force") and len(list(self.pids())) == BRICKS)

    def start_again(self):
        self.start_bricks()
        await_that("each mount at each brick", self.are_connected)
        await_that("bricks that have the same", self.are_alike)

    def are_connected(self):
        """Whether each mount has a connection to each brick."""
        return all(mount.is_at_all() for mount in self.mounts.values())

    def are_alike(self):
        """Whether each brick has the same files; no client is at work."""
        one, *others = (self.contents(brick) for brick in self.bricks)
        return all(other == one for other in others)

    @staticmethod
    def contents(brick):
        found = {}
        for name in glob.glob(os.path.join(brick, "*", "*")):
            with open(name, "rb") as file:
                found[os.path.relpath(name, brick)] = file.read()
        return found

    def end(self):
        try:
            self.gluster("stop", "force")
        finally:
            for pid in [*self.pids(), *self.pids("shd")]:
                os.kill(pid, signal.SIGKILL)


class Server:
    """`dchm serve` on a machine: its process and its port."""

    def __init__(self, stack, volume, program, machine, name, *words):
        self.machine, self.port = machine, servers.free_port()
        self.directory = os.path.join(volume.mounts[machine].point, name)
        self.errors = os.path.join(volume.room, f"{machine}-{self.port}.errors")
        line = [program, "serve", self.directory, "--port", str(self.port), *words]
        self.child = stack.enter_context(servers.process(line, self.errors))

    def records(self):
        with open(self.errors, encoding="utf-8") as file:
            return file.read()

    def waits(self):
        await_that("the record of the server that stands by", lambda: WAITS in self.records())

    def why(self):
        """The record of a store that has failed."""
        await_that("the record of a failure", lambda: "the store has failed" in self.records())
        return next(line for line in self.records().splitlines() if "the store has failed" in line)

    def has_said(self, seconds=1):
        """Whether it prints something, or ends, in that time."""
        return bool(select.select([self.child.stdout], [], [], seconds)[0])

    def listens(self):
        """Waits until it does, and returns the moment."""
        line = servers.first_line(self.child)
        if line != b"listening %d\n" % self.port:
            raise RuntimeError(f"it said {line!r}: {self.records()}")
        return time.monotonic()

    def kill(self):
        moment = time.monotonic()
        servers.kill(self.child)
        return moment

    def ask(self, kind, key, number=None, seconds=servers.REPLY_SECONDS):
        """The reply to one request, which is awaited for so many seconds."""
        with contextlib.closing(servers.Connection(servers.Dchm, self.port)) as connection:
            connection.socket.setsockopt(socket.SOL_SOCKET, socket.SO_RCVTIMEO, struct.pack("ll", seconds, 0))
            return connection.exchange(servers.Dchm.request(kind, key, number))

    def get(self, key=KEY):
        return servers.Dchm.number("get", self.ask("get", key))

    def put(self, number):
        return self.ask("put", KEY, number)

    def keep(self):
        """A Compute that changes nothing: its status, and what it says last."""
        line = [self.child.args[0], "call", "--port", str(self.port), "compute", KEY.decode(), "KEEP", "_"]
        ended = subprocess.run(line, stdin=subprocess.DEVNULL, capture_output=True, timeout=120, text=True)
        return ended.returncode, (ended.stdout + ended.stderr).splitlines()[-1]

    def answers(self, number):
        """Whether a change is answered."""
        return self.put(number) != counters.FAILED
