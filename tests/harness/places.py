"""Where the programs and files of the tree stand."""
import os

TOP = os.path.realpath(os.path.join(os.path.dirname(os.path.abspath(__file__)), "..", ".."))


def in_tree(*names):
    return os.path.join(TOP, *names)


def built(crate):
    """The program that `rt ci` builds of a crate."""
    return in_tree("crates", crate, "out", crate)


PROGRAM = built("dchm")
TESTS, BENCH = in_tree("tests"), in_tree("bench")
JAVA, PYTHON = in_tree("clients", "java"), in_tree("clients", "python")
STAND_IN = in_tree("tests", "stand_in.py")
PROTOCOL_PAGE = in_tree("docs", "PROTOCOL.md")


def read(*names):
    """The text of a file; of a path within the tree its names may be given."""
    with open(in_tree(*names), encoding="utf-8", errors="replace") as file:
        return file.read()
