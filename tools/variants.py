"""The types of errors and answers, and what each variant of them is, for the tools beside it."""
import functools
import glob
import re
from typing import NamedTuple

from sources import crate_of, signature_at, type_at
from specs import TOP, crates, lines_of

NUMBERED = re.compile(r'#\[error\("(\d+) (\w+)')
VARIANT = re.compile(r"^    ([A-Z]\w*)\b")
ENUM = re.compile(r"^pub enum (\w+)")


class Errors(NamedTuple):
    """A type of errors, with its variants: their number, if they have one, and their comment."""
    name: str
    path: str
    # The number of the line above its head.
    at: int
    variants: dict

    def name_of(self, variant):
        return f"{self.variants[variant][0]} {variant}".strip()

    def title(self, variant):
        comment = self.variants[variant][1]
        return self.name_of(variant) + (f": {comment}" if comment else "")


def errors_named(call, name):
    """The type of that name that a call's file may mean, if it is an enum."""
    used = [crate for line in lines_of(call.path) for crate in re.findall(r"^use (\w+)::", line)]
    for crate in dict.fromkeys([crate_of(call.path), *used, *crates()]):
        found = type_at(crate, name)
        if found and any(re.search(rf"\benum {name}\b", line) for line in found[2]):
            return Errors(name, found[0], found[1], variants_of(found[2]))
    return None


@functools.lru_cache(maxsize=None)
def enums():
    """Each public enum of the crates, the lowest crate first."""
    heads = ((crate, found[1]) for crate in crates() for path in sorted(glob.glob(f"{TOP}/crates/{crate}/src/*.rt"))
             for found in map(ENUM.match, lines_of(path)) if found)
    return [Errors(name, path, at, variants_of(lines)) for crate, name in heads for path, at, lines in [type_at(crate, name)]]


def variants_named(name):
    """The enums that have a variant of this name, as `Failed` or `Refusal::Failed`, or of this number; with the variant."""
    *owner, last = name.split("::")
    for each in enums():
        for variant, (number, _) in each.variants.items():
            if last in (variant, number) and owner in ([], [each.name]):
                yield each, variant


def variants_of(lines):
    variants, number, comment = {}, "", []
    for line in lines:
        numbered, variant = NUMBERED.search(line), VARIANT.match(line)
        if numbered:
            number = numbered[1]
        elif line.startswith("    ///"):
            comment.append(line.strip()[3:].strip())
        elif variant:
            variants[variant[1]] = number, " ".join(comment)
            number, comment = "", []
    return variants


def result_of(call):
    text = " ".join(signature_at(lines_of(call.path), call.at))
    return re.split(r"\b(?:requires|ensures)\b", text)[0].partition("->")[2]


def error_type(call):
    """What a call's result has in the place of its error, or None if it has no `Result`."""
    text = result_of(call)
    at = text.find("Result<")
    if at < 0:
        return None
    depth, parts = 0, [""]
    for letter in text[at + len("Result<"):]:
        depth += (letter in "<([") - (letter in ">)]")
        if depth < 0:
            break
        if letter == "," and depth == 0:
            parts.append("")
        else:
            parts[-1] += letter
    return parts[-1].strip() if len([part for part in parts if part.strip()]) > 1 else "io::Error"
