"""How a server ends in a round of take-overs, by kinds."""
import random
import signal
import time

from cluster import BRICKS, VOLUME, await_that, comes

KINDS = ("kill", "brick", "lost", "part", "cut", "flap", "stop")
# How long a cut and a stop last: about as long as the bricks and the mounts wait before they give each other up.
CUT_SECONDS = STOP_SECONDS = (5, 9)
FLAPS, DOWN_SECONDS, UP_SECONDS = (2, 4), (2, 6), (0.1, 1.5)
BRICK_SECONDS = (0.5, 3)
# For how many looks it is awaited who goes on. So many changes that are answered show that the old server does; for so long
# it is left alone then.
LOOKS, ENOUGH, LEFT_SECONDS = 300, 50, (1.5, 3)


class Endings:
    """Each is done to the old server of a round, and returns the words by which it is counted."""

    def __init__(self, volume, seed):
        self.volume, self.network, self.random = volume, volume.network, random.Random(seed)

    def wait(self, bounds):
        seconds = self.random.uniform(*bounds)
        time.sleep(seconds)
        return seconds

    def kill(self, turn):
        turn.old.kill()
        return "killed"

    def brick(self, turn):
        """A brick is lost and starts again. Once it is started, and before it has all, the server is killed."""
        self.volume.kill_brick(turn.number % BRICKS)
        self.wait(BRICK_SECONDS)
        self.volume.start_bricks()
        turn.old.kill()
        return "killed beside a brick that is just back"

    def lost(self, turn):
        """A brick is lost and starts again. The server's files aren't opened again there. Then its machine is lost."""
        self.volume.kill_brick(turn.number % BRICKS)
        self.wait(BRICK_SECONDS)
        self.volume.start_bricks()
        await_that("the other mount at each brick", self.volume.mounts[turn.spare.server.machine].is_at_all)
        self.wait(BRICK_SECONDS)
        self.mount_of(turn).kill()
        return "its machine lost after a brick came back"

    def part(self, turn):
        """The machine and the brick that the other one reads from lose each other. It goes on, and is lost."""
        brick = turn.number % BRICKS
        self.volume.gluster("set", "cluster.read-subvolume", f"{VOLUME}-client-{brick}")
        self.volume.part(turn.old.machine, brick)
        self.wait(BRICK_SECONDS)
        self.mount_of(turn).kill()
        return "its machine lost after it had lost a brick"

    def cut(self, turn):
        self.network.cut(turn.old.machine)
        turn.tell_seconds(self.wait(CUT_SECONDS))
        self.network.mend(turn.old.machine)
        return self.who_goes_on(turn, "cut off")

    def flap(self, turn):
        for _ in range(self.random.randint(*FLAPS)):
            self.network.cut(turn.old.machine)
            turn.tell_seconds(self.wait(DOWN_SECONDS))
            self.network.mend(turn.old.machine)
            self.wait(UP_SECONDS)
        return self.who_goes_on(turn, "cut off again and again")

    def stop(self, turn):
        """Its mount's process is stopped. It goes on, or is killed, or meanwhile its machine is cut off and it goes on."""
        process, way = self.mount_of(turn), turn.number % 3
        process.send_signal(signal.SIGSTOP)
        if way == 2:
            self.network.cut(turn.old.machine)
        turn.tell_seconds(self.wait(STOP_SECONDS))
        if way != 2 and turn.spare.is_done():
            turn.faults.append("a take-over from a mount that is stopped")
        if way == 0:
            process.kill()
            return "its mount stopped, and killed"
        self.network.mend(turn.old.machine)
        process.send_signal(signal.SIGCONT)
        return self.who_goes_on(turn, "its mount stopped, and cut off" if way == 2 else "its mount stopped")

    def mount_of(self, turn):
        return self.volume.mounts[turn.old.machine].process

    def who_goes_on(self, turn, what):
        """Waits until it is seen: the other server, or the old one, which is killed then."""
        before = turn.load.all_answered()
        comes(lambda: turn.spare.is_done() or turn.load.all_answered() > before + ENOUGH, LOOKS)
        if not turn.spare.is_done():
            self.wait(LEFT_SECONDS)
        if turn.spare.is_done():
            return what
        turn.old.kill()
        return what + "; it went on, and was killed"
