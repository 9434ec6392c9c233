"""Reads the calls, traits and types in the src/ of the crates, for the tools beside it."""
import functools
import glob
import os
import re
from typing import NamedTuple, Optional

from specs import TOP, comment_above, indent_of, kit, lines_of

BLOCK = re.compile(r"^(?:(pub) |pub\(\w+\) )?(?:unsafe )?(impl|trait)\b")
CALL = re.compile(r"^ *(?:(pub) )?(?:unsafe )?fn (\w+)")
CLAUSE = re.compile(r"^ +(?:requires|ensures)\b")
MEMBER = re.compile(r"^    ghost (\w+)(?:: | = )\{")
ABOVE = ("///", "//", "#[")


class Block(NamedTuple):
    """A trait; or an `impl` of a type, then `trait` names what it implements, if anything."""
    path: str
    start: int
    end: int
    head: str
    is_public: bool
    trait: Optional[str]
    type: Optional[str]

    def is_trait(self):
        """Whether it is a public trait."""
        return self.is_public and self.type is None


class Call(NamedTuple):
    name: str
    path: str
    at: int
    block: Optional[Block]

    def owners(self):
        """What may stand before the name."""
        names = [self.block.trait, self.block.type] if self.block else []
        return {crate_of(self.path), os.path.basename(self.path)[:-3], *filter(None, names)}

    def title(self):
        owner = [self.block.type or self.block.trait] if self.block else []
        return "::".join([crate_of(self.path), *owner, self.name])

    def implements(self):
        """The trait that this method implements, or None."""
        return self.block.trait if self.block and self.block.type else None


def crate_of(path):
    return os.path.relpath(path, TOP).split(os.sep)[1]


def without_generics(text):
    text, longer = text.replace("->", ""), None
    while text != longer:
        text, longer = re.sub(r"<[^<>]*>", "", text), text
    return text


def block_at(path, at):
    lines = lines_of(path)
    behind = next(number for number in range(at, len(lines)) if lines[number].endswith(("{", "}")))
    end = behind if lines[behind].endswith("{}") else lines.index("}", behind)
    head = " ".join(line.strip() for line in lines[at:behind + 1]).rstrip("{} ")
    plain = without_generics(head).partition(" where ")[0]
    is_public, kind = BLOCK.match(lines[at]).groups()
    if kind == "trait":
        return Block(path, at, end, head, bool(is_public), re.search(r"trait (\w+)", plain)[1], None)
    trait, _, owner = plain.partition("impl ")[2].rpartition("for ")
    return Block(path, at, end, head, True, trait.strip() or None, owner.strip())


@functools.lru_cache(maxsize=None)
def read_source(path):
    """Returns the blocks of a file, and its calls: those that are public, and those of traits."""
    blocks, calls = [], []
    for at, line in enumerate(lines_of(path)):
        if BLOCK.match(line):
            blocks.append(block_at(path, at))
        call = CALL.match(line)
        block = blocks[-1] if blocks and indent_of(line) and at < blocks[-1].end else None
        if call and (call[1] or block and block.is_public and block.trait):
            calls.append(Call(call[2], path, at, block))
    return blocks, calls


@functools.lru_cache(maxsize=None)
def blocks_and_calls():
    """Returns all blocks, and all calls but those of traits that aren't public."""
    paths = sorted(glob.glob(f"{TOP}/crates/*/src/**/*.rt", recursive=True))
    read = [read_source(path) for path in paths]
    blocks = [block for found, _ in read for block in found]
    hidden = {block.trait for block in blocks if not block.is_public} - {block.trait for block in blocks if block.is_trait()}
    calls = [call for _, found in read for call in found if not (call.block and call.block.trait in hidden)]
    return blocks, calls


def trait_call(call):
    """Returns the call of the trait that a method implements, of this repository or of Rattle's; None if there is none."""
    if not call.implements():
        return None
    calls = (other for others in (blocks_and_calls()[1], calls_of_rattle(call.implements())) for other in others)
    return next((other for other in calls if other.name == call.name and other.block
                 and not other.block.type and other.block.trait == call.implements()), None)


@functools.lru_cache(maxsize=None)
def calls_of_rattle(trait):
    """Returns the calls in the files of Rattle's that have a trait of this name."""
    folders = [f"{kit()}/{crate}/src" for crate in ("core", "alloc", "std")] if kit() else []
    paths = [path for folder in folders for path in sorted(glob.glob(f"{folder}/**/*.rt", recursive=True))]
    head = re.compile(rf"^pub trait {trait}\b")
    return [call for path in paths if any(map(head.match, lines_of(path))) for call in read_source(path)[1]]


def comment_of(lines, at):
    """Returns the lines of the comment above an item, without its attributes."""
    above = lines[comment_above(lines, at, ABOVE):at]
    return [line for line in above if not line.lstrip().startswith("#[")]


def signature_at(lines, at):
    """Returns the lines of a signature with its clauses, without the body."""
    depth, has_clause, found = 0, False, []
    for line in lines[at:]:
        if line.strip() in ("{", "{}") and indent_of(line) == indent_of(lines[at]):
            break
        code = line.partition("//")[0].rstrip()
        has_clause = has_clause or bool(CLAUSE.match(line))
        found.append(line)
        depth += code.count("{") - code.count("}")
        if depth == 0 and code.endswith(";"):
            break
        if not has_clause and code.endswith(("{", "{}")):
            found[-1] = line.rstrip("{} ")
            break
    return found


def is_closed(text):
    """Whether a ghost member ends here: each brace is closed."""
    return text.endswith("};") and text.count("{") == text.count("}")


def members_of(block):
    """Yields the ghost members of a block: the name, the number of its line, and its lines with the comment above them."""
    lines = lines_of(block.path)
    for at in range(block.start, block.end):
        member = MEMBER.match(lines[at])
        if member:
            end = next(number for number in range(at, block.end) if is_closed("".join(lines[at:number + 1])))
            yield member[1], at, [*comment_of(lines, at), *lines[at:end + 1]]


def type_at(crate, name, file="*"):
    """Returns the path of a type, the number of its line, and its lines; None if it isn't in that file of the crate."""
    head = re.compile(rf"^(?:pub(?:\(\w+\))? )?(?:struct|enum|type) {name}\b")
    for path in sorted(glob.glob(f"{TOP}/crates/{crate}/src/{file}.rt")):
        lines = lines_of(path)
        at = next((number for number, line in enumerate(lines) if head.match(line)), None)
        if at is not None:
            is_short = lines[at].endswith((";", "{}"))
            end = at if is_short else next(number for number in range(at, len(lines)) if lines[number] in ("}", ");"))
            return path, at, [*comment_of(lines, at), *lines[at:end + 1]]
    return None


def model_of(crate, name):
    """Returns the block in which a type of the crate says what contracts see of it, or None."""
    blocks, _ = blocks_and_calls()
    models = (block for block in blocks if block.trait == "Model" and crate_of(block.path) == crate)
    return next((block for block in models if block.type == name), None)
