"""The files of cases that docs/SCRIPTS.md describes: their blocks, the bytes of a line, and what is wanted of a run."""
import dataclasses
import itertools
import os
import re

ESCAPED = re.compile(rb"\\(n|r|x[0-9A-F]{2})")
UNKNOWN = re.compile(rb"\\(?!n|r|x[0-9A-F]{2})")
NAMED = {b"n": b"\n", b"r": b"\r"}


def byte_of(escaped):
    name = escaped[1]
    return NAMED[name] if name in NAMED else bytes.fromhex(name[1:].decode())


def bytes_of(text):
    r"""The bytes that a text stands for: its own, but for `\n`, `\r` and `\x` with two digits."""
    content = text.encode()
    if UNKNOWN.search(content):
        raise ValueError(f"no such byte: {text}")
    return ESCAPED.sub(byte_of, content)


def all_bytes_of(lines):
    """The bytes of the lines, one behind the other."""
    return b"".join(map(bytes_of, lines))


@dataclasses.dataclass
class Block:
    """A line at the margin, and the lines below it that begin with two spaces, without them."""
    place: str
    word: str
    rest: str
    lines: list = dataclasses.field(default_factory=list)


@dataclasses.dataclass
class Case:
    """The blocks up to the next case, and the parts of its file."""
    name: str
    parts: dict
    blocks: list = dataclasses.field(default_factory=list)


@dataclasses.dataclass
class Wanted:
    """The bytes that a stream is to have, or only that it has some."""
    content: bytes = b""
    is_any: bool = False

    def is_met(self, came):
        return bool(came) if self.is_any else came == self.content

    def told(self, came):
        """What was wanted and what came, of the first line that differs."""
        if self.is_met(came):
            return "as wanted"
        if self.is_any:
            return "wanted any, came none"
        lines = itertools.zip_longest(self.content.splitlines(True), came.splitlines(True), fillvalue=b"")
        number, (one, other) = next(pair for pair in enumerate(lines, 1) if pair[1][0] != pair[1][1])
        return f"line {number}, wanted {one}, came {other}"


@dataclasses.dataclass
class Run:
    """A run of the program: its words, how its streams behave, and what is to come of it."""
    words: list
    given: bytes = b""
    piece_bytes: int = 0
    is_input_broken: bool = False
    is_output_broken: bool = False
    is_unread: bool = False
    status: int = 0
    output: Wanted = dataclasses.field(default_factory=Wanted)
    error: Wanted = dataclasses.field(default_factory=Wanted)

    def add(self, line):
        """Adds what a line says."""
        match line.partition(" ")[::2]:
            case "input", text:
                self.given += bytes_of(text)
            case "output", text:
                self.output.content += bytes_of(text)
            case "error", text:
                self.error.content += bytes_of(text)
            case "status", number:
                self.status = int(number)
            case "pieces", number:
                self.piece_bytes = int(number)
            case "any", "output":
                self.output.is_any = True
            case "any", "error":
                self.error.is_any = True
            case "broken", "input":
                self.is_input_broken = True
            case "broken", "output":
                self.is_output_broken = True
            case "unread", "":
                self.is_unread = True
            case _:
                raise ValueError(f"no such line of a run: {line}")

    def fault(self, status, output, error, is_read):
        """What was wanted and what came, if that isn't the same."""
        is_met = status == self.status and self.output.is_met(output) and self.error.is_met(error)
        said = f"status: wanted {self.status}, came {status}"
        said += f"; output: {self.output.told(output)}; error: {self.error.told(error)}"
        if is_read and self.is_unread:
            return said + "; the input was read"
        return None if is_met else said


def run_of(block):
    """The run that a block `run` tells of; `""` is the empty word."""
    program, *words = ["" if word == '""' else word for word in block.rest.split(" ")]
    if program != "dchm":
        raise ValueError(f"no such program: {program}")
    run = Run(words)
    for line in block.lines:
        run.add(line)
    return run


def script_of(lines, parts):
    """The lines of a script, each with what it prints behind its number."""
    for line in lines:
        text, arrow, prints = line.partition(" -> ")
        if line.startswith("use "):
            yield from script_of(parts[line.removeprefix("use ")], parts)
        elif arrow:
            yield text.rstrip(), prints
        else:
            raise ValueError(f"a line of a script that prints nothing: {line}")


def blocks_of(path):
    """The blocks of a file. Empty lines, and those that begin with `#`, are passed over."""
    blocks = []
    with open(path, encoding="utf-8", newline="\n") as file:
        for number, line in enumerate(file.read().split("\n"), 1):
            if line.startswith("  "):
                blocks[-1].lines.append(line[2:])
            elif line and not line.startswith("#"):
                word, _, rest = line.partition(" ")
                blocks.append(Block(f"{os.path.basename(path)}, line {number}", word, rest))
    return blocks


def cases_of(path):
    """The cases of a file."""
    blocks, cases = blocks_of(path), []
    parts = {block.rest: block.lines for block in blocks if block.word == "part"}
    for block in blocks:
        if block.word == "case":
            cases.append(Case(block.rest, parts))
        elif block.word != "part":
            cases[-1].blocks.append(block)
    return cases
