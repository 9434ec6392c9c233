"""Random lists of events.

What comes next depends on what was made before, as far as its outcome can be foreseen, and is now and then any event.
"""
import dataclasses
import enum

from searching.calls import KEYS, random_change, random_read
from searching.dice import Dice
from searching.events import (Begin, Capture, Device, Fail, KeeperStep, Leave, Old, Open, Publish, Release, Seal,
                              Side, Stage, Start, Step, Stop, Sweep)
from searching.fills import random_fill
from searching.stories import Story

# The workers of a list, and the numbers that any event may name, some of them above those of a script.
MOST_HANDS, MOST_WORKERS = 8, 70
# About how many device calls come before one that fails or is stopped within.
DANGERS = (12, 40, 100, 300)
STRIPES = (1, 4, 16)
LEAST_EVENTS, MOST_EVENTS = 200, 2000
CHANGE_STEPS, READ_STEPS = 5, 4
ANY_BATCH = (1 << 32) - 1


class Reply(enum.Enum):
    """What a worker is thought to have at the end of its walk."""
    NONE = enum.auto()
    HELD = enum.auto()
    DURABLE = enum.auto()


@dataclasses.dataclass
class Hand:
    """What a worker is thought to do: the steps that are left of its walk, and its reply."""
    left: int = 0
    reply: Reply = Reply.NONE

    def begin(self, steps, reply):
        self.left, self.reply = steps, reply


class Maker:
    """The maker of one list. The order in which it draws decides what the list is."""

    def __init__(self, seed, number):
        self.dice = Dice.of_list(seed, number)
        self.workers = self.dice.below(MOST_HANDS) + 1
        self.keys = self.dice.below(len(KEYS)) + 1
        self.danger = self.dice.pick(DANGERS)
        self.stripes, self.tickets = 16, 0
        self.is_open = self.is_broken = self.is_calm = False
        self.hands = self.idle_hands()
        self.begin_story(Story.REST)

    def events(self):
        """The events of the list, in half of the lists behind an Old."""
        if self.dice.one_in(2):
            yield Old()
        for _ in range(self.dice.below(MOST_EVENTS - LEAST_EVENTS + 1) + LEAST_EVENTS):
            event = self.next_event()
            self.foresee(event)
            yield event

    def idle_hands(self):
        return [Hand() for _ in range(self.workers)]

    def begin_story(self, story):
        self.story, self.parts = story, story.parts(self.stripes)

    def foresee(self, event):
        """What is thought of the store behind the event."""
        if isinstance(event, Open) and event.fails_at is None and not self.is_open:
            self.is_open, self.is_broken, self.stripes = True, False, event.stripes
            self.begin_story(Story.REST)
        elif isinstance(event, (Stop, Leave)):
            self.is_open, self.hands = False, self.idle_hands()

    def next_event(self):
        if self.dice.one_in(40):
            return self.any_event()
        if self.is_open:
            return self.go_on()
        return self.stop() if self.dice.one_in(10) else self.opening()

    def go_on(self):
        """What the workers and the keeper do next in a life."""
        return self.end() or self.work_or_keep() or self.work(self.random_worker()) or self.any_event()

    def end(self):
        """The life ends, or the store fails, once in a while."""
        if not self.dice.one_in(10 if self.is_broken else self.danger * 15):
            return None
        kind = self.dice.below(8)
        if kind < 2:
            return Leave()
        return Fail() if kind == 2 or kind == 3 and self.is_broken else self.stop()

    def work_or_keep(self):
        """A calm keeper works while no worker is in the middle of a walk."""
        is_calm = self.is_calm and self.story is not Story.REST
        walking = [worker for worker, hand in enumerate(self.hands) if hand.left]
        worker = walking[0] if walking and is_calm else self.random_worker()
        works = self.hands[worker].left or not is_calm and self.dice.one_in(2)
        return works and self.work(worker) or self.keep()

    def work(self, worker):
        """What a worker does next; mostly nothing if its reply isn't durable yet."""
        hand = self.hands[worker]
        if hand.left:
            hand.left -= 1
            return Step(worker)
        if hand.reply is Reply.DURABLE:
            hand.begin(1, Reply.NONE)
            return Release(worker)
        if hand.reply is Reply.HELD:
            if not self.dice.one_in(12):
                return None
            hand.left = 2
            return Release(worker)
        if self.dice.one_in(3):
            hand.begin(READ_STEPS, Reply.HELD)
            return self.read(worker)
        self.tickets += 1
        hand.begin(CHANGE_STEPS, Reply.HELD)
        return self.change(worker)

    def keep(self):
        """What the keeper does next, if it isn't at rest."""
        try:
            part = next(self.parts)
        except StopIteration:
            self.begin_story(Story.random(self.dice))
            self.is_calm = not self.dice.one_in(3)
            return None
        if isinstance(part, Side):
            return self.device(part)
        if part is Stage:
            return self.stage()
        if part == Publish():
            self.publish()
        return part

    def publish(self):
        """The replies that are held now may be released."""
        for hand in self.hands:
            if hand.reply is Reply.HELD and not hand.left:
                hand.reply = Reply.DURABLE

    def device(self, side):
        """The next device call of the side, which may fail or be stopped within."""
        if self.dice.one_in(self.danger):
            return self.stop(side)
        fails = self.dice.one_in(self.danger * 2)
        self.is_broken |= fails
        return Device(side, self.fill() if fails else None)

    # ---- any event, whether it fits or not

    def any_event(self):
        worker = self.dice.below(MOST_WORKERS) if self.dice.one_in(10) else self.random_worker()
        return self.dice.pick(self.ANY)(self, worker)

    def any_stop(self, _):
        return self.stop(None if self.dice.one_in(3) else self.random_side())

    def any_device(self, _):
        side, fails = self.random_side(), self.dice.one_in(12)
        return Device(side, self.fill() if fails else None)

    def rarely(self, times, event, worker):
        """This event once in so many times, and else a step of the worker."""
        return event if self.dice.one_in(times) else Step(worker)

    # ---- what is drawn

    def random_worker(self):
        return self.dice.below(self.workers)

    def random_side(self):
        return Side.LOG if self.dice.one_in(2) else Side.CHECKPOINT

    def fill(self):
        return random_fill(self.dice, self.tickets)

    def opening(self, _=None):
        """An opening, whose device call fails now and then."""
        return Open(self.dice.pick(STRIPES), self.dice.below(50) if self.dice.one_in(6) else None)

    def change(self, worker):
        return Start(worker, random_change(self.dice, self.keys))

    def read(self, worker):
        return Start(worker, random_read(self.dice, self.keys))

    def stage(self, _=None):
        """A batch of few changes, of some, or of all."""
        kind = self.dice.below(4)
        if kind == 1:
            return Stage(ANY_BATCH)
        return Stage(self.dice.below(8) + (8 if kind else 0))

    def stop(self, side=None):
        return Stop(side, self.fill())

    # What any event may be, which is given a worker, and how often.
    WEIGHTS = (
        (1, opening),
        (1, any_stop),
        (1, lambda self, worker: self.rarely(3, Leave(), worker)),
        (1, lambda self, worker: self.rarely(2, Fail(), worker)),
        (6, change),
        (4, read),
        (6, lambda self, worker: Step(worker)),
        (5, lambda self, worker: Release(worker)),
        (4, lambda self, worker: Sweep()),
        (2, lambda self, worker: KeeperStep()),
        (4, stage),
        (6, any_device),
        (2, lambda self, worker: Publish()),
        (2, lambda self, worker: Begin()),
        (3, lambda self, worker: Capture(self.dice.below(self.stripes + 1))),
        (1, lambda self, worker: Seal()),
        (1, lambda self, worker: self.rarely(3, Old(), worker)),
    )
    ANY = [make for times, make in WEIGHTS for _ in range(times)]
