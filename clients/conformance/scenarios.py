"""What `check` plays with a client: scripts of the peer, calls, and what each call may end with.

An outcome is the line of a driver: `value V`, `did yes` or `did no`, `fault N`, `refused N`, `notmade`, `open`, `cannot`.
"""
import dataclasses
import json
import os

import scripted
from harness import frames, plain
from harness.plain import Function, Method
from harness.words import reply_text, value_in, word_of

VECTORS = os.path.join(scripted.HERE, "vectors.jsonl")
# What a call may end with that got no reply. A change may be called open although it was surely not made: that is careful.
OPEN, NOT_MADE, CAREFUL = frozenset({"open"}), frozenset({"notmade"}), frozenset({"notmade", "open"})
# The calls that change nothing.
READS = ("get", "getOrDefault", "containsKey", "count", "reduce", "search")
WINDOW = 12


@dataclasses.dataclass(frozen=True)
class Call:
    """A call, and the outcomes that it may have."""
    words: tuple
    may: frozenset

    @property
    def is_change(self):
        return self.words[0] not in READS


@dataclasses.dataclass
class Scenario:
    """A script, calls made one after another or together, and the map that may be there after, if that is sure."""
    name: str
    script: list
    calls: list
    together: bool = False
    seconds: int = 30
    after: dict = None


def call(words, *outcomes):
    return Call(tuple(words.split(" ")), frozenset().union(*({it} if isinstance(it, str) else it for it in outcomes)))


def outcome_of(says):
    """The outcome of a call whose reply says this."""
    kind, *rest = says.split(" ", 1)
    if kind in ("was", "now"):
        return "value " + rest[0]
    return " ".join(says.split(" ")[:2])


def told_by(reply):
    """The outcome of a call with this reply, which is no refusal."""
    content = plain.Bytes(reply, 2)
    status, value = content.number(1), content.value(may_be_absent=True)
    return outcome_of(reply_text(status, value)) if status < 0x80 else f"refused {status - 0x80}"


# ---- vectors


def vectors():
    """Each vector that is a call: the reply has to be understood, and the map after be the one that is told."""
    with open(VECTORS, encoding="utf-8") as file:
        for number, line in enumerate(file, 1):
            vector = json.loads(line)
            if vector["call"] is None:
                continue
            outcomes = {outcome_of(vector["says"])}
            if vector["says"].startswith("refused"):
                outcomes.add("cannot")
            before = {key: value_in(word) for key, word in vector["before"].items()}
            yield Scenario(f"vector {number}", before, [Call(tuple(vector["call"]), frozenset(outcomes))],
                           after={key: value_in(word) for key, word in vector["after"].items()})


# ---- replies that are cut, and connections that end


# A change and what its reply tells, on `map a i5` and `map t text`: replies of each form.
CHANGES = (("put n i1", "value _"), ("merge a SUM i2", "value i7"), ("put t tnew", "value ttext"), ("removeIf a i5", "did yes"),
           ("merge t SUM i1", "fault 1"))
QUESTIONS = (("get a", "value i5"), ("get t", "value ttext"), ("containsKey a", "did yes"), ("get n", "value _"))
MAP = ["map a i5", "map t ttext"]


def replies_cut():
    """At each byte, by an end and by a reset; the next call is made over another connection."""
    for words, says in (*CHANGES, *QUESTIONS):
        method, key = words.split(" ")[:2]
        length = {"value _": 4, "did yes": 12, "fault 1": 12, "value i7": 12, "value i5": 12}.get(says, 10)
        may = {"notmade", says} if method in READS else OPEN
        for count in range(length):
            for action in ("cut", "torn"):
                yield Scenario(f"{action} {count}: {words}", [*MAP, f"{method} {key} {action} {count}"],
                               [call(words, may), call("get other", "value _")])
        calls = [call(words, says), call("get other", "value _")]
        yield Scenario(f"bytewise: {words}", [*MAP, f"{method} {key} bytewise"], calls)


# What ends a connection once the reply is there, and without it.
ANSWERED, UNANSWERED = ("quit", "crash"), ("drop", "reset", "unmade", "cut 3", "torn 3", "failed", "failed_on", "bad", "garbled")


def ends_within_a_window():
    """Of calls that are sent together: those before the end are answered, the others weren't."""
    for action in (*ANSWERED, *UNANSWERED):
        for place in (0, 1, 5, WINDOW - 1):
            answered = place + (action in ANSWERED)
            calls = [window_call(number, number < answered, action, number == place) for number in range(WINDOW)]
            # A reset may take replies with it that were sent.
            if action in ("crash", "reset", "torn 3"):
                calls = [Call(it.words, it.may | (OPEN if it.is_change else NOT_MADE)) for it in calls]
            script = [*MAP, f"{window_method(place)} k{place} {action}"]
            yield Scenario(f"{action} at {place} of {WINDOW} calls", script, calls, True)


def window_method(number):
    return "get" if number % 4 == 3 else "merge"


def window_call(number, is_answered, action, is_its):
    words = f"get k{number}" if number % 4 == 3 else f"merge k{number} SUM i1"
    is_change = number % 4 != 3
    if is_answered:
        return call(words, "value i1" if is_change else "value _")
    if not is_change:
        return call(words, "notmade", "value _", *(["refused 6", "refused 9"] if is_its else []))
    if action == "bad":
        return call(words, CAREFUL, *(["refused 6"] if is_its else []))
    # A server may have made it, whatever this peer did.
    return call(words, OPEN)


def refusals():
    """The connection goes on behind them."""
    for action, number in (("full", 7), ("spent", 10)):
        yield Scenario(f"refused {number}", [*MAP, f"put n {action}"],
                       [call("put n i1", f"refused {number}"), call("get a", "value i5"), call("put n i2", "value _")])


def no_place():
    """A full server: nothing was made, and a later call is served."""
    calls = [call("put n i1", CAREFUL), call("get a", NOT_MADE, "value i5"), call("put m i1", "value _", CAREFUL),
             call("get a", "value i5")]
    yield Scenario("a full server", [*MAP, "full 2"], calls)


def stalled():
    """No reply comes in time: what is sent behind it is lost too, and the next call isn't."""
    yield Scenario("a reply that never comes", [*MAP, "merge a stall"],
                   [call("merge a SUM i1", OPEN), call("get t", "value ttext")], seconds=1)
    yield Scenario("a question that is never answered", [*MAP, "get a stall"],
                   [call("get a", NOT_MADE, "value i5"), call("get t", "value ttext")], seconds=1)
    calls = [call(f"merge k{number} SUM i1", *(["value i1"] if number < 3 else [OPEN])) for number in range(WINDOW)]
    yield Scenario("a reply amid a window that never comes", [*MAP, "merge k3 stall"], calls, True, 1)


def scenarios():
    for some in (replies_cut, ends_within_a_window, refusals, no_place, stalled):
        yield from some()


def argument_in(word):
    """A function, a threshold or a value."""
    if word in Function.__members__:
        return Function[word]
    return int(word) if word.isdigit() else value_in(word)


def request_of(words):
    """The method, the key and the arguments of a call in the words of `dchm call`."""
    method = Method[words[0]]
    key, rest = (None, words[1:]) if method in plain.WHOLE_MAP else (words[1], words[2:])
    return method, key, tuple(map(argument_in, rest))


def frame_of(words):
    """The frame of a call, by which the peer knows it."""
    return frames.frame(frames.body_of(request_of(words)))


def differs(after, entries):
    """What is wrong with the map after."""
    if after is None or after == entries:
        return None
    keys = [key for key in {**after, **entries} if after.get(key) != entries.get(key)]
    return "; ".join(f"{key!r} is {word_of(entries.get(key))[:60]}" for key in keys)
