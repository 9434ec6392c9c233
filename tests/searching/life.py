"""A life of the store: its stripes, its workers, and the walks of its keeper.

A walk is a generator, whose code up to the next `yield` is one step.
"""
import dataclasses
import typing

from harness.plain import READS, stripe_of
from harness.words import reply_text
from searching.events import WORKERS
from searching.outcomes import REFUSED, SKIPPED, STARTED, Outcome, Tally


@dataclasses.dataclass(frozen=True)
class Made:
    """A step, and if it was the last of its walk, what that has come to."""
    step: str
    end: Outcome = None

    def outcome(self):
        return dataclasses.replace(self.end, text=f"{self.step}, {self.end.text}") if self.end else Outcome(self.step)


@dataclasses.dataclass(frozen=True)
class Held:
    """A reply at its position."""
    position: int
    reply: tuple


@dataclasses.dataclass
class Stripe:
    """Whether somebody holds the stripe, and one past its last ticket."""
    last: int
    is_held: bool = False


@dataclasses.dataclass
class Worker:
    """The greatest position that a worker has seen, its walk, and the reply that it holds."""
    seen: int
    walk: typing.Iterator = None
    held: Held = None

    def see(self, position):
        self.seen = max(self.seen, position)

    def begin(self, walk):
        self.walk = walk
        return STARTED

    def step(self):
        """The next step of its walk."""
        made = next(self.walk)
        if made.end:
            self.walk = None
        return made


class Life:
    """A life for so many stripes that begins after the changes of the past."""

    def __init__(self, past, stripes):
        self.past, self.durable = past, past.count
        self.stripes = [Stripe(past.count) for _ in range(stripes)]
        self.workers = [Worker(past.count) for _ in range(WORKERS)]
        # A FAIL was made, or a device call has failed.
        self.has_failed = self.is_broken = False
        # The keeper's walk, and where a sweep goes on that found a stripe held, with the count that it had looked at.
        self.walk = self.waiting = None

    # ---- the workers

    def worker(self, number):
        """The worker with this number; another one has nothing to do."""
        return self.workers[number] if number < WORKERS else None

    def is_idle(self, number):
        worker = self.worker(number)
        return worker and worker.walk is None and worker.held is None

    def start(self, number, request):
        return self.workers[number].begin(self.call(self.workers[number], request)) if self.is_idle(number) else SKIPPED

    def release(self, number):
        worker = self.worker(number)
        if not worker or worker.walk or not worker.held:
            return SKIPPED
        return worker.begin(self.released(worker))

    def step(self, number):
        worker = self.worker(number)
        return worker.step().outcome() if worker and worker.walk else SKIPPED

    def call(self, worker, request):
        """The walk of a call."""
        number = stripe_of(request[1], len(self.stripes))
        stripe = self.stripes[number]
        if stripe.is_held:
            yield Made(f"TAKE {number} held", Outcome(f"refused 8 Busy {number}", Tally.BUSY))
            return
        stripe.is_held = True
        worker.see(self.past.past_outbox(number))
        yield Made(f"TAKE {number}")
        if self.has_failed:
            yield Made("ALIVE no")
            stripe.is_held = False
            yield Made(f"GIVE {number}", REFUSED)
            return
        if request[0] in READS:
            # Nobody else changes the stripe.
            worker.held = Held(max(worker.seen, stripe.last), self.past.map.call(request))
            yield Made("ALIVE yes")
        else:
            yield Made("ALIVE yes")
            yield from self.change(worker, number, request)
        stripe.is_held = False
        worker.see(worker.held.position)
        yield Made(f"GIVE {number}", Outcome(f"held {worker.held.position}"))

    def change(self, worker, number, request):
        """The steps of a change that draw its ticket."""
        worker.see(self.past.count)
        yield Made(f"LOOK {self.past.count}")
        ticket, reply = self.past.count, self.past.add(number, request)
        worker.held = Held(self.past.count, reply)
        worker.see(self.past.count)
        self.stripes[number].last = self.past.count
        yield Made(f"TICKET {ticket}")

    def released(self, worker):
        """The walk of a release."""
        made = self.see(worker)
        yield made
        if made.end:
            return
        if not self.has_failed:
            yield Made("ALIVE yes", Outcome("notyet", Tally.NOT_YET))
            return
        yield Made("ALIVE no")
        made, worker.held = self.see(worker), None
        yield made if made.end else Made(made.step, Outcome("failed", Tally.GIVEN_UP))

    def see(self, worker):
        """SEE: a reply whose position is durable is released."""
        held, step = worker.held, f"SEE {self.durable}"
        worker.see(self.durable)
        if held.position > self.durable:
            return Made(step)
        worker.held = None
        return Made(step, Outcome(f"reply {held.position} {reply_text(*held.reply)}", Tally.RELEASED, position=held.position))

    # ---- the keeper

    def fail(self):
        self.has_failed = True
        return Outcome("fail")

    def step_keeper(self):
        """The next step of the keeper's walk."""
        if self.walk is None:
            return SKIPPED
        made = next(self.walk)
        if made.end:
            self.walk = None
        return made.outcome()

    def begin_sweep(self):
        """The first step of a sweep, or of what is left of one."""
        self.walk = self.sweep()
        return self.step_keeper()

    def sweep(self):
        is_new, (first, count) = self.waiting is None, self.waiting or (0, self.past.count)
        self.waiting = None
        if is_new:
            yield Made(f"LOOK {count}")
        for number, stripe in enumerate(self.stripes[first:], first):
            if stripe.is_held:
                self.waiting = number, count
                yield Made(f"TAKE {number} held", Outcome(f"sweep held {number}"))
                return
            stripe.is_held = True
            yield Made(f"TAKE {number}")
            stripe.is_held = False
            self.past.take_in_hand(number)
            is_last = number + 1 == len(self.stripes)
            yield Made(f"GIVE {number}", Outcome(f"sweep {count}") if is_last else None)

    def capture_finds(self, number):
        """What the first step of a capture of the stripe finds."""
        if self.stripes[number].is_held:
            return Made(f"TAKE {number} held", Outcome(f"refused 8 Busy {number}", Tally.BUSY)).outcome()
        return Made(f"TAKE {number}").outcome()

    def begin_capture(self, number):
        """The first step of a capture."""
        self.walk = self.capture(number)
        return self.step_keeper()

    def capture(self, number):
        stripe = self.stripes[number]
        if stripe.is_held:
            yield Made(f"TAKE {number} held", Outcome(f"refused 8 Busy {number}", Tally.BUSY))
            return
        stripe.is_held = True
        yield Made(f"TAKE {number}")
        mark = self.past.count
        yield Made(f"LOOK {mark}")
        stripe.is_held = False
        yield Made(f"GIVE {number}", Outcome(f"mark {mark}", mark=mark))

    def publish(self, committed):
        """The count of the committed changes is published."""
        if self.has_failed:
            return SKIPPED
        self.durable = max(self.durable, committed)
        return Outcome(f"durable {committed}")
