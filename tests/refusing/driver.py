"""The cases that the program run_memory plays, which makes a call between two marks and prints what stands around it."""
import itertools
import os

from harness.servers import run_program
from refusing.cases import Case, puts
from refusing.expected import BROKEN, READERS, calls_of, is_device_failure
from refusing.rooms import ERRORS, NONE, Kind, Told, fault_in, refuse_in_turn


def run(room, line, number):
    """What the program prints for a case behind its line, with the request of this number refused. It has to end well."""
    with open(os.path.join(room.place, "cases"), "w", encoding="utf-8") as cases:
        cases.write(line + "\n")
    status, printed, said = run_program(room.program, "cases", cwd=room.place, env=room.environment(number))
    if status:
        raise RuntimeError(f"status {status}: {said.strip()}, behind {printed.splitlines()[-1:]}")
    return printed.splitlines()[1:]


def difference(lines, expected):
    """The first line that isn't as it should be if nothing was refused."""
    for came, wanted in itertools.zip_longest(lines, expected.served):
        if came != wanted:
            return f"`{came}` in place of `{wanted}`"
    return "nothing else"


def try_number(room, case, expected, number):
    """One run: what kind it was, and what is wrong."""
    lines = run(room, case.line, number)
    may_be_served = expected.growths or expected.has_loop or not room.page.counts().refused
    if lines == expected.served:
        return Kind.SERVED, None if may_be_served else "served"
    if lines in expected.refused:
        return Kind.BROKEN if BROKEN in lines else Kind.REFUSED, None
    return Kind.FAILED, None if is_device_failure(case, lines) else difference(lines, expected)


def try_case(room, case):
    """Refuses each request of a case in turn."""
    told, expected = Told(), READERS[case.word](case)
    refuse_in_turn(room, told, lambda number: try_number(room, case, expected, number))
    put_off = len(told.numbers[Kind.SERVED])
    if not (told.faults or expected.has_loop) and put_off != expected.growths:
        told.faults.append(f"{put_off} growths were put off, and {expected.growths} begin")
    return told


def bytes_of_growth(room, count):
    """How many bytes the growth asks for that the key after `count` new keys begins; else what is wrong."""
    case = Case(" | ".join(["try_call 1", *puts(count)]) + f" > put next i{count}")
    told = try_case(room, case)
    served = told.numbers[Kind.SERVED]
    if told.faults or len(served) != 1:
        return told.faults or [f"{len(served)} requests of the growth"], 0
    run(room, case.line, NONE)
    return [], room.page.sizes()[served[0] - 1]


def bins_faults(room):
    """Growths to 2, 4, 8 and 16 bins ask for twice as much each. If the seventh key's is put off, the eighth makes it."""
    faults, sizes = [], []
    for count in (1, 2, 3, 6):
        wrong, size = bytes_of_growth(room, count)
        faults += wrong
        sizes.append(size)
    if not faults and sizes != [sizes[0] << place for place in range(4)]:
        faults.append(f"the growths ask for {sizes} bytes")
    if faults:
        return faults
    *state, seventh, eighth = puts(8)
    line = " | ".join(["try_call 1", *state]) + f" > {seventh} > {eighth}"
    run(room, line, NONE)
    ample = room.page.sizes()
    lines = run(room, line, ample.index(sizes[-1]) + 1)
    if lines != calls_of(Case(line)).served:
        faults.append("a growth that was put off isn't served")
    if sorted(room.page.sizes()) != sorted([*ample, sizes[-1]]):
        faults.append(f"the growth to 16 bins isn't asked for again: {room.page.sizes()}")
    return faults


def bins_rows(room):
    """What is wrong with the growths, also where a run of them goes wrong."""
    try:
        return bins_faults(room)
    except ERRORS as error:
        return [fault_in(error)]
