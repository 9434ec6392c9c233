"""Faults within opening, upgrading and making a directory."""
import contextlib
import os

from failing.rooms import TO_THE_END, REQUESTS, STRIPES, Fault, Wrong, check, room, work
from harness.counters import COUNTERS, values_of
from harness.files import OLD_FILES, OLD_FILES_ROTATED, write_files
from harness.servers import Connection, Dchm, first_line, free_port, kill, process

# How many rounds of clients there are at most, until both checkpoints are written.
MOST_ROUNDS = 1000
# One allocation in n is refused.
OPENING_RATE = 200
# The most calls that opening and formatting may make.
MOST_CALLS = 200
# An opening looks at the length of its checkpoint and of its log; if a log was followed by another, of both.
FEWEST_LOOKS = 2
# What is said of a device call that failed: of a file, or as the files are had.
DEVICE_FAILED = ("refused 9 Failed\n", "unreadable\n")


def started(here, fault, read):
    """Whether a server of the directory listens in spite of the fault, and if so what is read at its port.

    If not its status is 1, and it says why. It listens before it starts its threads. So if memory is refused, it may end
    after it has said so.
    """
    port, errors = free_port(), here.directory + ".errors"
    line = [here.program, "serve", here.directory, "--port", str(port), *STRIPES]
    with open(errors, "wb"), process(line, errors, environment=here.environment(fault)) as child:
        if first_line(child):
            here.refuse_no_memory()
            with contextlib.suppress(*[ConnectionError] if fault and fault.one_in else []):
                found = read(port)
                kill(child)
                return found
        status = child.wait(60)
    check(status == 1, f"{fault}: status {status}")
    check(here.said(), f"{fault}: nothing was said")
    return None


def starts(here, fault):
    """Whether a server of the directory listens in spite of the fault, and if so what the counters have.

    If not the files are as they were.
    """
    before = here.files()
    found = started(here, fault, values_of)
    after = here.files()
    changed = [name for name in {**before, **after} if before.get(name) != after.get(name)]
    check(found is not None or not changed, f"{fault}: files were changed: {changed}")
    return found


def used_directory(here):
    """Makes a directory in which two checkpoints and the log behind them lie; returns what the counters have."""
    here.init()
    with here.served() as (child, port):
        if not any(work(port, REQUESTS) and here.has_checkpoints() for _ in range(MOST_ROUNDS)):
            raise Wrong("no two checkpoints were written")
        values = values_of(port)
        kill(child)
    return values


def opening(call, how):
    """Each call of opening fails in turn: the start is refused, and the files are as they were."""
    with room() as here:
        values = used_directory(here)
        for number in range(1, MOST_CALLS):
            found = starts(here, Fault(call, how, first=number))
            if found:
                # A server looks on whether its files are there, and a look that fails tells it nothing.
                check(call == "look" or here.page.counts().faults == 0, f"call {number} went wrong, and the server listens")
                check(number > FEWEST_LOOKS, f"{number - 1} calls were seen")
                check(found == values, f"the counters have {found} in place of {values}")
                return f"{number - 1} calls"
    raise Wrong("each start was refused")


def opening_in_spite(fault):
    """What may be tried again is, and the map is whole."""
    with room() as here:
        values = used_directory(here)
        found = starts(here, fault)
        check(here.page.counts().faults > 0, "no call went wrong")
        check(found == values, f"the counters have {found} in place of {values}")


def opening_with_absent_files():
    """Files that were left out of a copy can't be made on a full disk: the start is refused, and later it is not."""
    with room() as here:
        here.init()
        for name in ("ckpt-b", "log-b"):
            os.remove(os.path.join(here.directory, name))
        # The lock and `ckpt-a` are there, and are opened first.
        found = starts(here, Fault("open", "ENOSPC", first=3, last=TO_THE_END))
        check(found is None, f"it listens, and the counters have {found}")
        check(here.page.counts().faults > 0, "no call went wrong")
        found = starts(here, None)
        check(found == dict.fromkeys(COUNTERS, 0), f"with room again the counters have {found}")


def opening_with_refused_memory(seed):
    """Without memory the start is refused, and the files are as they were; or it is served."""
    with room() as here:
        values = used_directory(here)
        environment = here.environment

        def refusing(fault):
            words = environment(fault)
            here.page.refuse_memory()
            return words

        here.environment = refusing
        refused = 0
        for number in range(10):
            found = starts(here, Fault(one_in=OPENING_RATE, seed=seed + number))
            refused += found is None
            check(found in (None, values), f"the counters have {found} in place of {values}")
        return f"{refused} of 10 refused"


def old_number(port):
    """The number of the key that an old directory has."""
    with contextlib.closing(Connection(Dchm, port)) as connection:
        return connection.ask("get", Dchm.request("get", b"a"))


def upgrading(files, newest, call, how, last):
    """Each call of a start that upgrades an old directory fails in turn; its map stays, and a later start upgrades it."""
    for number in range(1, MOST_CALLS):
        with room() as here:
            os.mkdir(here.directory)
            write_files(here.directory, files)
            fault = Fault(call, how, first=number, last=last)
            found = started(here, fault, old_number)
            has_failed = here.page.counts().faults > 0
            check(has_failed == (found is None), f"{fault}: a call went wrong is {has_failed}, and {found} was found")
            check(found is not None or here.said().endswith(DEVICE_FAILED), f"{fault}: {here.said()!r}")
            prefix = here.prefix()
            check(prefix == 1, f"{fault}: {prefix} changes, not 1")
            number_now = started(here, None, old_number)
            check(number_now == 5, f"{fault}: the number is {number_now}, not 5")
            version = here.files()[newest][:1]
            check(version == b"\2", f"{fault}: the newest log has version {version.hex()}")
            if not has_failed:
                check(found == 5, f"the number is {found}")
                return f"{number - 1} calls"
    raise Wrong("each start was refused")


def formatting(call, how, last):
    """Each call of `init` fails in turn; a second `init` makes the directory, or finds it made, and it is empty."""
    for number in range(1, MOST_CALLS):
        with room() as here:
            os.mkdir(here.directory)
            fault = Fault(call, how, first=number, last=last)
            status, printed, said = here.run("init", here.directory, *STRIPES, fault=fault)
            if not here.page.counts().faults:
                check((status, printed) == (0, "formatted 4\n"), f"status {status}, {said!r}")
                check(number > 4, f"{number - 1} calls were seen")
                return f"{number - 1} calls"
            check((status, printed) == (1, ""), f"{fault}: status {status}, {printed!r}")
            check(said.startswith("[ERROR ") and said.endswith(DEVICE_FAILED), f"{fault}: {said!r}")
            again = here.run("init", here.directory, *STRIPES)
            check(again in ((0, "formatted 4\n", ""), (1, "", "refused 15 AlreadyFormatted\n")), f"{fault}: {again}")
            prefix = here.prefix()
            check(prefix == 0, f"{fault}: {prefix} changes are there")
            here.keeps([])
    raise Wrong("each run failed")


def opening_cases():
    for call in ("sync", "read", "open", "look", "lock"):
        yield f"opening: EIO at each {call}", lambda call=call: opening(call, "EIO")
    for fault in (Fault("read", "EINTR", first=2), Fault("sync", "EINTR", first=3), Fault("read", "short", last=TO_THE_END),
                  Fault("forget", "EIO", last=TO_THE_END)):
        yield f"opening in spite of {fault}", lambda fault=fault: opening_in_spite(fault)
    yield "opening: absent files on a full disk", opening_with_absent_files
    for call, how, last in (("sync", "EIO", 0), ("write", "EIO", 0), ("write", "torn", 0), ("write", "ENOSPC", TO_THE_END)):
        name = f"{how} at each {call}{' and all behind it' if last else ''}"
        yield f"init: {name}", lambda call=call, how=how, last=last: formatting(call, how, last)
        for files, newest in ((OLD_FILES, "log-b"), (OLD_FILES_ROTATED, "log-a")):
            yield (f"upgrade to a newest log in {newest}: {name}",
                   lambda files=files, newest=newest, call=call, how=how, last=last: upgrading(files, newest, call, how, last))
