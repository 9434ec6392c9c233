"""Takes clauses and definitions apart into the statements that they make, for the tools beside it."""
import functools
import re
from typing import NamedTuple

from cited import code_of, place, uses_of, words_in
from sources import CLAUSE, signature_at
from specs import indent_of, lines_of


class Statement(NamedTuple):
    """A clause, an equation, a field or a constructor, and the word that it is of."""
    owner: str
    path: str
    line: int
    comment: str
    lines: tuple
    uses: tuple

    def code(self):
        return code_of(self.lines, "//" if self.path.endswith(".rt") else "--")

    def place(self):
        return place(self.path, self.line - 1)


def clauses_of(call):
    """Each clause of a call as a statement."""
    lines = lines_of(call.path)
    signature, found = signature_at(lines, call.at), []
    for at, line in enumerate(signature):
        if CLAUSE.match(line):
            found.append((at, [line]))
        elif found and not line.strip().startswith("//"):
            found[-1][1].append(line)
    for at, own in found:
        above = [line.strip()[2:].strip() for line in comment_of_clause(signature, at)]
        yield Statement("clause", call.path, call.at + at + 1, " ".join(above), tuple(own), uses_of(call.path, call.block))


def comment_of_clause(lines, at):
    first = at
    while lines[first - 1].strip().startswith("//"):
        first -= 1
    return lines[first:at]


@functools.lru_cache(maxsize=None)
def parts_of(word):
    """The head of a definition in specs, its comment, and its statements."""
    text = list(word.text)
    head = max((at for at, line in enumerate(text) if line == lines_of(word.path)[word.line - 1]), default=None)
    if head is None or not word.path.endswith(".antt"):
        return "", "", []
    above = head
    while above and text[above - 1].strip().startswith("--"):
        above -= 1
    comment = " ".join(line.strip()[2:].strip() for line in text[above:head])
    depth, is_listed = indent_of(text[head]), re.search(r"\b(?:record|data|codata) ", text[head])
    end = head + 1
    while end < len(text) and not (re.search(r"\bwhere$", text[end - 1]) if is_listed else begins(text[end], word.name, depth)):
        end += 1
    found, said = [], []
    inner = min((indent_of(line) for line in text[end:] if line.strip()), default=0)
    for at in range(end, len(text)):
        if text[at].strip().startswith("--"):
            said.append(text[at].strip()[2:].strip())
        elif text[at].strip() and indent_of(text[at]) <= inner:
            found.append((at, [text[at]], " ".join(said)))
            said = []
        elif found and text[at].strip():
            found[-1][1].append(text[at])
    return " ".join(text[:end]), comment, [
        Statement(word.name, word.path, word.line + at - head, said, tuple(own), word.uses) for at, own, said in found]


@functools.lru_cache(maxsize=None)
def handed_to(word):
    """What a definition says that it is handed, with what a word for a result stands for."""
    line = lines_of(word.path)[word.line - 1]
    head = line + parts_of(word)[0].partition(line)[2]
    cited = (each for each in words_in(head, word.uses, word.path) if each)
    texts = (one_line(statement.code()) for each in cited for statement in parts_of(each)[2])
    return " ".join([head, *(text for text in texts if " = Result " in text)])


def begins(line, name, depth):
    return indent_of(line) == depth and line.strip().startswith(name + " ")


def stripped(text):
    """A text without the brackets around all of it."""
    text = text.strip()
    while text.startswith("(") and closes_at(text) == len(text) - 1:
        text = text[1:-1].strip()
    return text


def closes_at(text):
    depth = 0
    for at, letter in enumerate(text):
        depth += (letter in "({") - (letter in ")}")
        if depth == 0:
            return at
    return -1


def parts_between(text, sign):
    """The parts of a text between its outermost signs."""
    text, depth, parts = stripped(text), 0, [""]
    for letter in text:
        depth += (letter in "({") - (letter in ")}")
        if letter == sign and depth == 0:
            parts.append("")
        else:
            parts[-1] += letter
    return [text] if len(parts) == 1 else [each for part in parts for each in parts_between(part, sign)]


def alternatives(text):
    """The parts of a text of which one holds."""
    return parts_between(text, "⊎")


def factors(text):
    """The parts of a text that all hold."""
    return parts_between(text, "×")


def split_at(text):
    """What stands before the = or : of a statement, and what behind it."""
    text, depth = one_line(text), 0
    for at, letter in enumerate(text):
        depth += (letter in "({") - (letter in ")}")
        if depth == 0 and text[at:at + 3] in (" = ", " : "):
            return text[:at], text[at + 3:]
    return "", text


def meant(equation):
    """What an equation says, without its left side if that takes nothing apart that the right side speaks of."""
    before, behind = split_at(equation)
    if " = " not in equation or behind == "⊥" or re.search(r"\(Ok [(A-Z]", before):
        return equation
    bound = {name for names in re.findall(r"\([\w.]+ ([^()]+)\)", re.sub(r"\(Ok \w+\)", "", before)) for name in names.split()}
    return equation if bound & set(re.findall(r"\w+", behind)) else behind


def one_line(text):
    return re.sub(r"^pub ", "", re.sub(r"\s+", " ", text).strip())
