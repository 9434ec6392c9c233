"""The places of docs/PROVED.md that tell of a call, for tools/contract."""
import functools
import os
import re
from typing import NamedTuple

from exports import is_public
from sources import blocks_and_calls, crate_of
from specs import TOP, crates, lines_of

PAGE = os.path.join("docs", "PROVED.md")
QUOTED = re.compile(r"`([^`]+)`")
LINK = re.compile(r"\[([^]]*)\]\([^)]*\)")
END = re.compile(r"(?<=[.?!])\s+")
MOST_PLACES = 3
MOST_WORDS = 30
# How near a row is that tells of the crate of a call, and not of the call.
OF_ITS_CRATE = 4


class Piece(NamedTuple):
    """A sentence or a row of the page."""
    line: int
    text: str
    # What of it says of what it is.
    subject: str
    # The heading of the part that it is of, the crates of that part's table, and the one of whose row it is.
    heading: str
    crates: tuple
    row: str

    def names(self):
        """The names of what it is of, in its order."""
        return QUOTED.findall(self.subject)


def sections():
    """The sections of the page: the number of the line above each, and its lines."""
    lines = lines_of(os.path.join(TOP, PAGE))
    starts = [at for at, line in enumerate(lines) if line.startswith("## ")]
    for start, end in zip(starts, [*starts[1:], len(lines)]):
        yield start, lines[start:end]


@functools.lru_cache(maxsize=None)
def pieces():
    known, found = set(crates()), []
    for start, lines in sections():
        of_section = tuple(dict.fromkeys(cell_of(line) for line in lines if cell_of(line) in known))
        heading = ""
        for at, line in enumerate(lines):
            if line.startswith("### "):
                heading = line.lstrip("# ")
                found.append(Piece(start + at + 1, heading, heading, "", of_section, ""))
            elif line.startswith("|"):
                cells = [cell.strip() for cell in line.strip("|").split("|")]
                row = cells[0] if cells[0] in known else ""
                text = ": ".join(cells[:2])
                found.append(Piece(start + at + 1, text, text if row else cells[0], heading, of_section, row))
            else:
                texts = filter(None, END.split(line.lstrip("- ")))
                found += [Piece(start + at + 1, text, text, heading, of_section, "") for text in texts]
    return found


def cell_of(line):
    return line.strip("|").split("|")[0].strip() if line.startswith("|") else ""


def rank(piece, call):
    """How near a piece is to a call: the least is the nearest; None if it doesn't tell of it."""
    crate, owners = crate_of(call.path), call.owners()
    names = [name.split("::") for name in piece.names()]
    if call.block and f"(not `{call.block.type}`" in piece.heading + piece.text:
        return None
    is_first = bool(names) and names[0][-1] == call.name
    is_named = bool(re.search(rf"\b{crate}\b", piece.text))
    if any(name[-1] == call.name and len(name) > 1 and set(name[:-1]) <= owners for name in names):
        return 0 if piece.crates else 5, not is_first
    if [call.name] in names and (is_named or crate in piece.crates and is_meant(piece, call, names)):
        return 1 if piece.crates else 5, not is_first
    if call.name.startswith("try_") and ["try_"] in names and (is_named or crate in piece.crates):
        return 2, False
    if crate in piece.crates and call.block and begins_with(piece, {call.block.type, call.block.trait}):
        return 3, False
    return (OF_ITS_CRATE, False) if piece.row == crate else None


def is_meant(piece, call, names):
    """Whether a bare name is that of this call: its type is named too, or no crate before its own has a call of the name."""
    is_told_whose = call.block and any(name[-1] in (call.block.type, call.block.trait) for name in names)
    having = [crate for crate in piece.crates if crate in crates_having(call.name)]
    return is_told_whose or having[0] == crate_of(call.path)


@functools.lru_cache(maxsize=None)
def crates_having(name):
    """The crates that have a public call of the name."""
    return {crate_of(call.path) for call in blocks_and_calls()[1] if call.name == name and is_public(call)}


def begins_with(piece, names):
    """Whether one of the names is quoted among the first words."""
    first = QUOTED.search(" ".join(piece.subject.split()[:5]))
    return bool(first) and first[1] in names


def shortened(piece):
    text = LINK.sub(r"\1", piece.text)
    words = (f"({piece.heading}) {text}" if piece.heading else text).split()
    return " ".join(words[:MOST_WORDS]) + (" .." if len(words) > MOST_WORDS else "")


def places_of(call):
    """At most so many places of the page that tell of a call, the nearest first."""
    ranked = [(rank(piece, call), piece) for piece in pieces()] if is_public(call) else []
    nearest = sorted((each for each in ranked if each[0] is not None), key=lambda each: each[0])
    found = {}
    for (nearness, _), piece in nearest:
        of_crate = "of its crate, " if nearness == OF_ITS_CRATE else ""
        found.setdefault(piece.line, f"{PAGE}:{piece.line}: {of_crate}{shortened(piece)}")
    return list(found.values())[:MOST_PLACES]
