"""Calls and replies as the program spells them: `dchm call`, the scripts of `dchm sim`, and the cases of tests/memory."""
from harness import plain
from harness.plain import Function, Method

FUNCTIONS = Function.__members__


def value_in(word):
    return None if word == "_" else int(word[1:]) if word[0] == "i" else word[1:]


def word_of(value):
    return "_" if value is None else f"i{value}" if isinstance(value, int) else f"t{value}"


def request_in(text):
    """The method's number, the key and the arguments that a text has."""
    name, key, *words = text.split(" ")
    return Method[name], key, tuple(FUNCTIONS[word] if word in FUNCTIONS else value_in(word) for word in words)


def request_text(method, key, arguments):
    words = (it.name if isinstance(it, Function) else word_of(it) for it in arguments)
    return " ".join((method.name, key, *words))


def reply_text(status, value):
    if status == plain.DID:
        return "did yes" if value else "did no"
    if status == plain.FAULT:
        return f"fault {plain.FAULTS[value]}"
    return f"{'was' if status == plain.WAS else 'now'} {word_of(value)}"
