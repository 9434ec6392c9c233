"""Which calls of a crate its callers can name, for tools/contract."""
import functools
import os
import re

from sources import crate_of
from specs import TOP, lines_of

MODULE = re.compile(r"^pub mod (\w+);", re.MULTILINE)
HANDED_ON = re.compile(r"^pub use (\w+)::(?:\{([^}]*)\}|([^;{}]+));", re.MULTILINE)
DECLARED = re.compile(r"^(pub )?(?:pub\(\w+\) )?(?:struct|enum|type|trait) (\w+)")


def source(crate, module):
    return f"{TOP}/crates/{crate}/src/{module}.rt"


@functools.lru_cache(maxsize=None)
def handed_on(crate):
    """The public modules of a library with its root, and the names that it hands on, each with its module."""
    text = "\n".join(line.partition("//")[0] for line in lines_of(source(crate, "lib")))
    names = {(module, name.partition(" as ")[0].strip())
             for module, several, one in HANDED_ON.findall(text) for name in (several or one).split(",")}
    return {"lib", *MODULE.findall(text)}, names


@functools.lru_cache(maxsize=None)
def types_of(crate):
    """The names of the types and traits that a library makes public."""
    modules, names = handed_on(crate)
    declared = (DECLARED.match(line) for module in modules for line in lines_of(source(crate, module)))
    return {name for _, name in names} | {found[2] for found in declared if found and found[1]}


def is_public(call):
    """Whether another crate can make the call: a function by its module, a method by its type or its trait."""
    crate, block = crate_of(call.path), call.block
    if not os.path.exists(source(crate, "lib")):
        return False
    if not block:
        modules, names = handed_on(crate)
        module = os.path.basename(call.path)[:-len(".rt")]
        return module in modules or (module, call.name) in names
    is_of_any_type = block.type and re.match(rf"impl<[^>]*\b{re.escape(block.type)}\b", block.head)
    return (block.trait if is_of_any_type or not block.type else block.type) in types_of(crate)
