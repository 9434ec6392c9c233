"""The words that a text cites, for the tools beside it."""
import os
import re
from typing import NamedTuple

from sources import comment_of, members_of, model_of, type_at
from specs import TOP, definition_of, lines_of, uses_in, words_of

# A word of a clause, with what stands behind its dots.
WORD = re.compile(r"[^\W\d][\w'-]*(?:\.[^\W\d][\w'-]*)*")


class Word(NamedTuple):
    name: str
    path: str
    line: int
    text: tuple
    # The lines of `use` by which its own words are found.
    uses: tuple


def is_of_kit(path):
    return not path.startswith(TOP + os.sep)


def place(path, at):
    return f"{path if is_of_kit(path) else os.path.relpath(path, TOP)}:{at + 1}"


def uses_of(path, block=None):
    """The lines of `use` that hold at the top of a file, or in that block of it."""
    lines = lines_of(path)
    inside = lines[block.start:block.end] if block else []
    return tuple(line for line in lines if line.startswith(("ghost use", "use", "pub use"))) + tuple(inside)


def seen_of(crate, name, file="*"):
    """What contracts see of a type: its model, or else its declaration."""
    found = type_at(crate, name, file)
    if not found:
        return None
    path, at, lines = found
    model = model_of(crate, name)
    if not model:
        return Word(name, path, at + 1, tuple(lines), uses_of(path))
    members = [text for member, _, text in members_of(model) if member != "coded"]
    text = (*comment_of(lines_of(path), at), model.head, *sum(members, []))
    return Word(name, model.path, model.start + 1, text, uses_of(model.path, model))


def meaning(crate, parts, name):
    """The word that a place below the specs of a crate names, or None if it isn't of this repository."""
    if parts[0] == "declared" and len(parts) > 2:
        return seen_of(crate, parts[2], parts[1])
    found = definition_of(crate, parts, name) if name else None
    return found and Word(found.name, found.path, found.line, found.text, uses_of(found.path))


def ghost_words(text, traits, own):
    """The ghost members of these traits that a text names, as those of a type; those of its own trait stand alone."""
    for block in traits:
        before = r"(?<![\w.])" if block == own else r"(?:\b[A-Z]\w*|⟧)\."
        for name, at, lines in members_of(block):
            if re.search(rf"{before}{name}\b", text):
                yield Word(f"{block.trait}.{name}", block.path, at + 1, tuple(lines), uses_of(block.path))


def words_in(text, uses, path=None):
    """The words that a text cites, by lines of `use`, or as words of the file in which it stands."""
    scope = {}
    for here, *target in uses_in(uses):
        scope.setdefault(here, []).append(target)
    own = words_of(path) if path else {}
    for word in WORD.findall(text):
        first, *behind = word.split(".")
        for crate, parts, name in scope.get(first, []):
            yield meaning(crate, parts, name or (behind[0] if behind else None))
        if first in own:
            yield Word(own[first].name, path, own[first].line, own[first].text, uses_of(path))


def words_of_word(word):
    """The words that a word's definition cites."""
    is_of_specs = word.path.endswith(".antt")
    return words_in(code_of(word.text, "--" if is_of_specs else "//"), word.uses, word.path if is_of_specs else None)


def code_of(lines, mark):
    return "\n".join(line.partition(mark)[0] for line in lines)
