"""The cases, and the plain map on which one of them is played."""
import dataclasses
import itertools

from harness import plain
from harness.places import in_tree, read
from harness.plain import Method
from harness.words import FUNCTIONS, request_in, value_in, word_of

# Those of the driver, and those of the program.
CASES = in_tree("crates", "run_memory", "data", "memory.cases")
TABLE = in_tree("tests", "refused_memory.table")


def request_named(text):
    """The method's number, the key and the arguments that a text has. One of the whole map has no key."""
    name, *words = text.split(" ")
    if name == "count":
        return Method.count, None, ()
    if name == "reduce":
        return Method.reduce, None, (FUNCTIONS[words[0]], int(words[1]))
    if name == "search":
        return Method.search, None, (int(words[0]), value_in(words[1]))
    return request_in(text)


@dataclasses.dataclass
class Case:
    """A line: the call, the count of stripes, the changes that make the state, and what is called on it."""
    line: str

    def __post_init__(self):
        front, *self.called = [part.strip() for part in self.line.split(">")]
        head, *self.state = [part.strip() for part in front.split("|")]
        self.word, stripes = head.split(" ")
        self.stripes = int(stripes)

    def __str__(self):
        words = " ".join(self.line.split(" ")[:12])
        return self.line if len(self.line) < 90 else f"{words[:80]} .."


class Store:
    """A plain map with its tickets, the entries that wait in each stripe's outbox, and the bins of each stripe."""

    def __init__(self, case):
        self.case, self.map, self.log = case, plain.Map() if case.word == "memory" else plain.Running(), []
        self.waiting = [[] for _ in range(case.stripes)]
        self.bins = [1] * case.stripes
        for text in case.state:
            self.call(text)

    def stripe(self, key):
        return plain.stripe_of(key, self.case.stripes)

    def entries(self, stripe):
        return sorted(key for key in self.map.entries if self.stripe(key) == stripe)

    def is_due(self, text):
        """Whether a change begins a growth of its stripe first."""
        method, key, _ = request_in(text)
        bins = self.bins[self.stripe(key)]
        return method in plain.CHANGES and len(self.entries(self.stripe(key))) >= bins - (bins >> 2)

    def call(self, text):
        """Makes the call; returns its position and its reply."""
        method, key, _ = request = request_in(text)
        stripe = self.stripe(key)
        if self.is_due(text):
            self.bins[stripe] *= 2
        reply = self.map.call(request)
        if method in plain.CHANGES:
            self.waiting[stripe].append(len(self.log))
            self.log.append(text)
        return len(self.log), reply

    def sweep(self, stripes):
        for stripe in stripes:
            self.waiting[stripe] = []

    def words(self, stripe):
        return "".join(f" {key}={word_of(self.map.entries[key])}" for key in self.entries(stripe))

    def stripe_lines(self):
        """The lines of the tickets and of each stripe, all of which are free."""
        return [f"  tickets {len(self.log)}", *[f"  stripe {stripe} waiting {len(waiting)}:{self.words(stripe)}"
                                                 for stripe, waiting in enumerate(self.waiting)]]

    def in_hand(self):
        """How many tickets are in hand from the first on."""
        waiting = set(itertools.chain(*self.waiting))
        return next((ticket for ticket in range(len(self.log)) if ticket in waiting), len(self.log))


def cases_in(path):
    return [Case(line) for line in read(path).splitlines() if line and not line.startswith("#")]


def concat_row():
    """A text of 4,095 bytes stays, and no ticket is drawn, until the byte that makes it the longest is put behind it."""
    return Case(f"try_call 16 | put m t{'x' * 4095} > merge m CONCAT ty")


def puts(count):
    """`count` new keys of the one stripe, each put once."""
    return [f"put k{number} i{number}" for number in range(count)]
