"""Random changes and reads."""
from harness import plain
from harness.plain import Function, Method

# A list uses the first few of them. Some have one hash.
KEYS = ("a", "Aa", "BB", "", "b", "key-17", "é", "AaBB", "BBAa", "zz", "\U0001f600", "x")
# Too long for a log of version 01.
LONG_KEY = "k" * 300
TEXTS = ("", "t", "uv", "é", "word", "\U0001f600")
LONG_TEXT = "x" * 2500
NUMBERS = (0, 1, 2, 3, -1, -2, 7, 100, (1 << 63) - 1, -(1 << 63))
# A put comes twice as often as each of the others.
CHANGES = (Method.put, *sorted(plain.CHANGES))
FUNCTIONS = tuple(Function)


def random_key(dice, keys):
    """One of the first `keys` keys, or now and then the long one."""
    return LONG_KEY if dice.one_in(30) else dice.pick(KEYS[:keys])


def random_value(dice):
    """A number, a short text, or now and then the long one."""
    if dice.one_in(100):
        return LONG_TEXT
    return dice.pick(TEXTS if dice.one_in(3) else NUMBERS)


def random_argument(dice):
    """The argument of a function, which now and then has none."""
    return None if dice.one_in(6) else random_value(dice)


def random_arguments(dice, method):
    if method == Method.remove:
        return ()
    if method in plain.TAKE_A_VALUE:
        return (random_value(dice),)
    if method == Method.replaceIf:
        return random_value(dice), random_value(dice)
    function = dice.pick(FUNCTIONS)
    return function, random_argument(dice) if method in plain.COMPUTE else random_value(dice)


def random_change(dice, keys):
    key, method = random_key(dice, keys), dice.pick(CHANGES)
    return method, key, random_arguments(dice, method)


def random_read(dice, keys):
    key, method = random_key(dice, keys), dice.pick(plain.READS)
    return method, key, (random_value(dice),) if method == Method.getOrDefault else ()
