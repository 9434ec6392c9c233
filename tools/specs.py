"""Reads the definitions in the specs/ of the crates, for the tools beside it."""
import functools
import glob
import os
import re
import subprocess
from typing import NamedTuple

TOP = os.path.dirname(os.path.dirname(os.path.abspath(__file__)))
# The head of a definition that other files may cite.
HEAD = re.compile(r"^ *(?:(?:abbrev|unfoldable|opaque) )?pub (?:(?:record|data|codata) )?([^\s:(){}]+)[^=]*:")
# The head of one that its own file alone may cite.
OWN_HEAD = re.compile(r"^ *(?:abbrev |unfoldable |opaque |record |data |codata )+([^\s:(){}]+)[^=]*:")
FIELD = re.compile(r"^ +pub \w+ :")
MODULE = re.compile(r"^ *module _ ")
# What ends without `where` on its line goes on in the next.
ENDS_HEAD = re.compile(r"\bwhere$")


class Definition(NamedTuple):
    name: str
    path: str
    line: int
    # The comment above it, or else that of the file.
    comment: str
    # Its own lines, with the comment above them, and before those the arguments of the modules around it.
    text: tuple[str, ...]


def crates():
    """Returns the names of the crates, the lowest first."""
    with open(f"{TOP}/crates.txt", encoding="utf-8") as lines:
        heads = (line.partition("#")[0].partition(":") for line in lines)
        return [head.strip() for head, colon, _ in heads if colon]


@functools.lru_cache(maxsize=None)
def lines_of(path):
    """Returns the lines of a file, and an empty list for none."""
    if not os.path.exists(path):
        return []
    with open(path, encoding="utf-8") as file:
        return file.read().splitlines()


def indent_of(line):
    return len(line) - len(line.lstrip())


def comment_above(lines, at, mark):
    """Returns the number of the first of the lines that begin with the mark and stand right above the line `at`."""
    while at > 0 and lines[at - 1].lstrip().startswith(mark) and not lines[at - 1].startswith("-- ----"):
        at -= 1
    return at


def head_of(line):
    return HEAD.match(line) or OWN_HEAD.match(line)


def end_of(lines, at, name):
    """Returns the number of the line behind a definition: its fields are further in, its equations begin with its name."""
    depth = indent_of(lines[at])
    for number in range(at + 1, len(lines)):
        line = lines[number]
        if not line.strip():
            behind = next((later for later in lines[number:] if later.strip()), "")
            if indent_of(behind) <= depth:
                return number
        elif indent_of(line) <= depth and head_of(line) and not line.lstrip().startswith(name + " "):
            return number
    return len(lines)


def end_of_head(lines, at):
    """Returns the number of the line behind the head of a module."""
    while not ENDS_HEAD.search(lines[at]):
        at += 1
    return at + 1


def definitions_in(path, head_of_line=HEAD.match):
    """Returns what a file defines for others, in its order; with `head_of`, what it defines for itself alone too."""
    lines, found, comment, is_open, around = lines_of(path), [], "", False, []
    of_file = lines[0][2:].strip() if lines and lines[0].startswith("--") else ""
    for at, line in enumerate(lines):
        text = line.strip()
        if text.startswith("-- ----") or not text:
            comment, is_open = "", False
            continue
        if text.startswith("--"):
            comment = f"{comment} {text[2:].strip()}" if is_open else text[2:].strip()
            is_open = True
            continue
        is_open = False
        around = [number for number in around if indent_of(lines[number]) < indent_of(line)]
        if MODULE.match(line):
            around.append(at)
        head = head_of_line(line)
        is_in_module = around and indent_of(line) == indent_of(lines[around[-1]]) + 2
        if head and (is_in_module or not FIELD.match(line)):
            modules = [lines[comment_above(lines, top, "--"):end_of_head(lines, top)] for top in around]
            own = lines[comment_above(lines, at, "--"):end_of(lines, at, head[1])]
            found.append(Definition(head[1], path, at + 1, comment or of_file, tuple(sum([*modules, own], []))))
    return found


USE = re.compile(r"^ *(?:pub |ghost )?use Rattle\.(\w+)\.specs\.([\w.]+)(?:\.\{(.*)\}| as (\S+?))?;?$")


def uses_in(lines):
    """Yields what lines of `use` bring: a name, its crate, its place below the specs, and its name there, or None for all."""
    for line in lines:
        used = USE.match(line)
        if used:
            crate, place, words, alias = used.groups()
            parts = tuple(place.split("."))
            if words is None:
                yield alias or parts[-1], crate, parts, None
            for word in (words or "").split(","):
                there, _, here = word.strip().partition(" as ")
                if there:
                    yield here or there, crate, parts, there


@functools.lru_cache(maxsize=None)
def words_of(path):
    """Returns the definitions of a file by their names, and those of `data` by the names of their constructors too."""
    words = {}
    for found in definitions_in(path, head_of):
        if " data " in f" {lines_of(path)[found.line - 1]}":
            depth = indent_of(lines_of(path)[found.line - 1]) + 2
            for line in found.text:
                constructor = re.match(rf"^ {{{depth}}}(\w+) :", line)
                if constructor:
                    words.setdefault(constructor[1], found)
        words[found.name] = found
    return words


@functools.lru_cache(maxsize=None)
def kit():
    """Returns the folder of the crates that come with Rattle, beside the page that `rt doc` prints; None if there is no rt."""
    try:
        page = subprocess.run(["rt", "doc"], stdout=subprocess.PIPE, check=True).stdout.decode().split()
    except (OSError, subprocess.CalledProcessError):
        return None
    folders = glob.glob(f"{os.path.dirname(page[0])}/*/std/specs") if page else []
    return os.path.dirname(os.path.dirname(folders[0])) if folders else None


def specs_of(crate):
    """Returns the folder of the specs of a crate, of this repository or of Rattle."""
    own = f"{TOP}/crates/{crate}/specs"
    return own if os.path.isdir(own) or not kit() else f"{kit()}/{crate}/specs"


def definition_of(crate, parts, name):
    """Returns the definition of a name in a file of the crate's specs, or in what that file hands on; or None."""
    path = f"{specs_of(crate)}/{'/'.join(parts)}.antt"
    if crate == "std" and not os.path.exists(path):
        # std hands on the files of core.
        return definition_of("core", parts, name)
    if name in words_of(path):
        return words_of(path)[name]
    for here, other, place, there in uses_in(line for line in lines_of(path) if line.startswith("pub use")):
        if here == name and there:
            return definition_of(other, place, there)
    return None
