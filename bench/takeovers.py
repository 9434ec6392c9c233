"""Take-overs one after another. The two machines change places with each, and what each finds is compared with what clients
were told. Checkpoints are made to come often, and the files keep their lengths, so that whatever a mount has kept of them
from its last life would be read as if it were new.
"""
import collections
import dataclasses
import mmap
import os
import struct
import threading
import time

import changing
from cluster import FIRST, SECOND, VOLUME, WAITS, Server, await_that, comes
from endings import LOOKS, Endings
from measuring import counters, servers

OFTEN = ("--checkpoint-bytes", "4000")
# A new map is first given long files: so many keys, written twice, with logs of this length.
LONG_KEYS, LONG = 3000, ("--checkpoint-bytes", "30000")
# How long clients change the map before its server ends, and how many changes are answered before; that takes checkpoints.
LOAD_SECONDS, LEAST_CHANGES = (1.5, 3), 300
# For how many seconds an old server's refusal is awaited, and a server after its end before it is started again.
REFUSAL_SECONDS, PAUSE_SECONDS = 60, 0.5
# What no spare may be refused with: 11 NotFormatted, 12 Damaged, 13 WrongVersion.
SPOILED = ("refused 11", "refused 12", "refused 13")
REFUSED, ANSWERED = "refused with 9", "ANSWERED"


class Spare(threading.Thread):
    """A server that stands by, and is started again whenever it ends, until it listens or says that the map is spoiled."""

    def __init__(self, start):
        super().__init__(daemon=True)
        self.begin, self.server = start, start()
        self.moment, self.spoiled, self.ends = None, None, []
        self.is_given_up = False
        self.start()

    def run(self):
        while not (self.is_given_up or self.is_done()):
            if self.server.has_said():
                self.hear()

    def hear(self):
        if self.server.child.stdout.readline():
            self.moment = time.monotonic()
            return
        self.server.child.wait()
        said = self.server.records().splitlines()[-1]
        if said.startswith(SPOILED):
            self.spoiled = said
        else:
            self.ends.append(said)
            time.sleep(PAUSE_SECONDS)
            self.server = self.begin()

    def is_done(self):
        return self.moment or self.spoiled


@dataclasses.dataclass
class Round:
    """One take-over: who serves, who stands by, and the clients; what is told of it, and what was wrong."""
    number: int
    old: Server
    spare: Spare
    load: changing.Load
    told: list = dataclasses.field(default_factory=list)
    faults: list = dataclasses.field(default_factory=list)

    def tell_seconds(self, seconds):
        self.told.append(f"{seconds:.1f} s")

    def late(self):
        """The clients that were answered after the take-over. That is as it should be of what was made before it, which is
        looked for as all that was answered."""
        return [client for client in self.load.clients if client.last and client.last > self.spare.moment]

    def line(self, what):
        return f"{self.number}, {self.old.machine}, {what}: " + "; ".join([*self.told, *self.faults])


class Rounds:
    """Rounds of one kind over one volume."""

    def __init__(self, stack, program, page, volume, kind, seed):
        self.stack, self.program, self.page, self.volume = stack, program, page, volume
        self.kind, self.seed, self.endings = kind, seed, Endings(volume, seed)
        self.seen, self.maps = collections.Counter(), 0

    def play(self, rounds):
        """So many rounds, and how many were seen of each thing."""
        print(f"Take-overs, {self.kind}, seed {self.seed}", flush=True)
        self.new_map()
        for number in range(1, rounds + 1):
            self.play_one(number)
        for what in sorted(self.seen):
            self.page.note(f"{what}: {self.seen[what]}")

    def server(self, machine, *words):
        return Server(self.stack, self.volume, self.program, machine, self.name, *words)

    def standby(self, machine):
        spare = Spare(lambda: self.server(machine, "--standby", *OFTEN))
        await_that("the record of the server that stands by", lambda: WAITS in spare.server.records() or spare.is_done())
        return spare

    def new_map(self):
        """A new map, whose files get the length that they keep; a server of it, and one that stands by."""
        self.maps += 1
        self.name = f"{self.kind}{self.maps}"
        servers.init(self.program, os.path.join(self.volume.mounts[FIRST].point, self.name))
        long = self.server(FIRST, *LONG)
        long.listens()
        keys = [b"%d" % number for number in range(LONG_KEYS)]
        for turn in range(2):
            changing.change_together(long.port, [servers.Dchm.request("put", key, turn) for key in keys])
        changing.remove(long.port, keys)
        long.kill()
        self.active = self.server(FIRST, *OFTEN)
        self.active.listens()
        self.spare = self.standby(SECOND)
        # What the last round found: the counters, and the keys that are there.
        self.counts, self.keys = [0] * changing.ADDERS, []

    def play_one(self, number):
        """One take-over. After one that went wrong there is a new map."""
        turn = Round(number, self.active, self.spare, changing.Load(self.active.port, b"%d" % number))
        self.endings.wait(LOAD_SECONDS)
        comes(lambda: turn.load.all_answered() >= LEAST_CHANGES, LOOKS)
        begun = time.monotonic()
        what = getattr(self.endings, self.kind)(turn)
        if not comes(turn.spare.is_done, LOOKS):
            turn.faults.append("no take-over")
        if turn.spare.moment:
            turn.told.append(f"the other one listened after {turn.spare.moment - begun:.1f} s")
            self.hear_old(turn)
        self.end_old(turn)
        self.look(turn)
        self.count(turn, what)
        self.page.check(turn.line(what), not turn.faults)
        self.go_on(turn)

    def hear_old(self, turn):
        """An old server that lives, and is back: it makes no change any more."""
        if turn.old.child.poll() is not None:
            return
        if self.is_mounted(turn.old.machine):
            await_that("each mount at each brick", self.volume.are_connected)
        said = asked_to_change(turn.old)
        turn.load.end()
        turn.told.append(f"the old one: {said}")
        if said == ANSWERED or any(client.begun > turn.spare.moment for client in turn.late()):
            turn.faults.append("the old one MADE a change after the take-over")
        self.seen[f"the old one: {said}"] += 1
        self.seen["changes answered after the take-over, and made before"] += len(turn.late())

    def end_old(self, turn):
        turn.old.kill()
        turn.load.end()
        if not self.is_mounted(turn.old.machine):
            self.volume.mounts[turn.old.machine].again()

    def is_mounted(self, machine):
        return self.volume.mounts[machine].process.poll() is None

    def count(self, turn, what):
        answered, ends = turn.load.all_answered(), turn.spare.ends
        turn.told.append(f"{answered} answered")
        if ends:
            turn.told.append(f"started again {len(ends)} times: {ends[0]}")
        self.seen[what] += 1
        self.seen["changes answered"] += answered
        self.seen["spares that were started again"] += len(ends)
        self.seen["take-overs that went wrong"] += bool(turn.faults)

    def look(self, turn):
        """What the server has that took over."""
        turn.faults += [f"wrong reply {client.wrong}" for client in turn.load.clients if client.wrong]
        if turn.spare.spoiled:
            self.mount_anew(turn)
        if turn.spare.server.child.poll() is None:
            turn.faults += self.missing(turn.spare.server.port, turn.load)

    def mount_anew(self, turn):
        """Of a map that is called spoiled: what each place has of it, and whether it opens from another mount."""
        machine = turn.spare.server.machine
        turn.faults += [turn.spare.spoiled, *self.generations(turn.spare.server)]
        self.volume.mounts[machine].again()
        turn.spare.server = self.server(machine, *OFTEN)
        turn.spare.server.has_said(servers.START_SECONDS)
        opens = turn.spare.server.child.poll() is None
        turn.faults.append("mounted anew it " + ("opens" if opens else "doesn't open"))

    def missing(self, port, load):
        """What isn't there of what was answered, or of what the last round found."""
        names = [changing.counter(number) for number in range(changing.ADDERS)]
        found = [number or 0 for number in changing.numbers_at(port, names)]
        least, most = changing.plus(self.counts, load.answered()), changing.plus(self.counts, load.sent())
        faults = []
        if not all(low <= number <= high for low, number, high in zip(least, found, most)):
            faults.append(f"counters {found}, answered {least}, sent {most}")
        for putter in load.putters:
            faults += list(putter.faults(changing.numbers_at(port, putter.keys())))[:1]
        gone = len(self.keys) - len(changing.present(port, self.keys))
        if gone:
            faults.append(f"{gone} keys of the round before are gone")
        changing.remove(port, self.keys)
        keys = [key for putter in load.putters for key in putter.keys()]
        self.counts, self.keys = found, changing.present(port, keys)
        return faults

    def generations(self, server):
        """The generation in each log's head: as the mount gives it, past its cache, and on each brick."""
        for log in ("log-a", "log-b"):
            path = os.path.join(server.directory, log)
            on_bricks = [generation(os.path.join(brick, self.name, log)) for brick in self.volume.bricks]
            yield (f"{log}: generation {generation(path)} by the mount, {generation(path, os.O_DIRECT)} past its cache, "
                   f"{on_bricks} on the bricks")

    def go_on(self, turn):
        """The bricks have all again, and the machines have changed places."""
        self.volume.succeeds("volume", "heal", VOLUME)
        if not comes(lambda: self.volume.are_connected() and self.volume.are_alike(), LOOKS):
            self.seen["bricks that weren't alike in time"] += 1
        if not turn.faults:
            self.active, self.spare = turn.spare.server, self.standby(turn.old.machine)
            return
        turn.spare.is_given_up = True
        turn.spare.server.kill()
        self.new_map()


def asked_to_change(server):
    """What an old server says to a change, or that it says nothing."""
    try:
        return REFUSED if server.ask("put", b"old", 1, REFUSAL_SECONDS) == counters.FAILED else ANSWERED
    except OSError:
        return f"no reply in {REFUSAL_SECONDS} s"


def generation(path, flags=0):
    """The generation in a log's head. What is read directly needs memory of its own pages."""
    file = os.open(path, os.O_RDONLY | flags)
    try:
        page = mmap.mmap(-1, mmap.PAGESIZE)
        os.preadv(file, [page], 0)
        return struct.unpack_from(">Q", page, 1)[0]
    finally:
        os.close(file)
