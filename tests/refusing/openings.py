"""The cases of directories that are opened and formatted, while a request of the program for memory is refused."""
import contextlib
import functools

from harness import opening
from harness.faulty import NEVER, NOW, ONCE_IT_LISTENS
from harness.places import read
from harness.plain import Method
from harness.servers import Connection, Dchm, dchm, first_line, free_port, kill, process, run_program
from refusing.cases import Store
from refusing.directories import OLD_VERSION, VERSION, first_files, later_files
from refusing.expected import NO_MEMORY, NO_MEMORY_REPLY
from refusing.rooms import Kind, Told, refuse_in_turn
from refusing.served import ask_anew, reads_of, replies_of, serve, stream_of

REFUSED = 1
# What each client of a server asks that starts its threads, and how many there are behind the first.
COUNT = (Method.count, None, ())
CLIENTS = 9
END_SECONDS = 60


def files_of(case):
    if case.word in ("open", "start"):
        return first_files(case.state, case.stripes)
    return later_files(OLD_VERSION if case.word == "open_old" else VERSION, case.state)


def fault_of_refusal(status, printed, said):
    """What is wrong with the end of a program that found no memory."""
    lines = said.splitlines()
    if (status, printed) == (REFUSED, "") and lines[-1:] == [NO_MEMORY]:
        return None
    return f"status {status}, {printed!r}, {said!r}"


def served(room, case, number):
    """What a server replies to the reads of the case, if it listens; and else what is wrong with its end."""
    port = free_port()
    words = [room.program, "serve", room.directory, "--port", str(port), "--stripes", str(case.stripes)]
    with process(words, room.errors, environment=room.environment(number, NOW)) as child:
        if first_line(child) == b"listening %d\n" % port:
            reads = ask_anew(port, reads_of(case))
            kill(child)
            return reads, None
        status = child.wait(END_SECONDS)
    return None, fault_of_refusal(status, "", read(room.errors))


def fault_of_files(room, case, before, wanted):
    """What is wrong with the files behind an opening, and with what the next server replies.

    An upgrade alone changes them, and then not what they stand for. Of the same files the next server makes the same.
    """
    after = room.files()
    if after == before:
        return None
    changed = [name for name in before if after.get(name) != before[name]]
    if case.word != "open_old":
        return f"files were changed: {changed}"
    stood, stands = (opening.opened(list(content.values())) for content in (before, after))
    if (stood.prefix, stood.entries) != (stands.prefix, stands.entries):
        return f"{changed} were changed: {stands.prefix} changes, {stands.entries}"
    with serve(room, case) as (_, port):
        reads = ask_anew(port, reads_of(case))
    return None if reads == wanted else f"the next server replies {reads.hex()}, not {wanted.hex()}"


def serve_once(room, case, number):
    """A server that is refused a request before it says that it listens."""
    before, wanted = files_of(case), replies_of(Store(case).map.entries, reads_of(case))
    room.make(before)
    reads, fault = served(room, case, number)
    fault = fault or fault_of_files(room, case, before, wanted)
    if reads is None:
        return Kind.REFUSED, fault
    return Kind.SERVED, fault or (None if reads == wanted else f"it replies {reads.hex()}, not {wanted.hex()}")


def check_once(room, case, number):
    """The same of `dchm check`, which has no line of that."""
    before = files_of(case)
    room.make(before)
    came = run_program(room.program, "check", room.directory, env=room.environment(number, NOW))
    changed = None if room.files() == before else "files were changed"
    if came[:2] == (0, opening.checked(list(before.values()))):
        return Kind.SERVED, changed
    return Kind.REFUSED, fault_of_refusal(*came) or changed


def lengths(room):
    """How many bytes each file has that is there."""
    return {name: len(content) for name, content in room.files().items()}


def init_once(room, case, number):
    """A directory that isn't formatted for want of memory has empty files at most, and is formatted later."""
    room.make({})
    words = ("init", room.directory, "--stripes", str(case.stripes))
    formatted = 0, f"formatted {case.stripes}\n", ""
    came = run_program(room.program, *words, env=room.environment(number, NOW))
    kind, faults = Kind.SERVED, []
    if came != formatted:
        kind = Kind.REFUSED
        faults = [fault_of_refusal(*came), f"then {lengths(room)}" if any(lengths(room).values()) else None]
        again = run_program(room.program, *words)
        faults.append(None if again == formatted else f"again {again}")
    wanted = {"ckpt-a": 36 + 12 * case.stripes, "ckpt-b": 0, "log-a": 18, "log-b": 0}
    faults.append(None if lengths(room) == wanted else f"at the end {lengths(room)}, not {wanted}")
    return kind, "; ".join(filter(None, faults))


def fault_of_server(room, port, child, wanted):
    """What is wrong with a server that starts its threads, and with its end if it has ended.

    Its first client is told the reply, that memory is wanting, or nothing, and in time. Later ones are served.
    """
    try:
        first = ask_anew(port, [COUNT])
        if first not in (wanted, NO_MEMORY_REPLY, b""):
            return f"its first client is told {first.hex()}, not {wanted.hex()}"
        room.page.refuse_memory(NEVER)
        with contextlib.ExitStack() as stack:
            clients = [stack.enter_context(contextlib.closing(Connection(Dchm, port))) for _ in range(CLIENTS)]
            replies = [client.exchange(stream_of([COUNT])) for client in clients]
    except ConnectionError:
        return fault_of_refusal(child.wait(END_SECONDS), "", read(room.errors))
    return None if set(replies) == {wanted} else f"replies {[reply.hex() for reply in replies]}, not {wanted.hex()}"


def start_once(room, case, number, workers):
    """A server that is refused a request behind the line that says that it listens, as it starts its threads."""
    before, wanted = files_of(case), replies_of(Store(case).map.entries, [COUNT])
    room.make(before)
    environment = room.environment(number, ONCE_IT_LISTENS)
    with dchm(room.program, room.directory, workers, environment=environment) as (child, port):
        fault = fault_of_server(room, port, child, wanted)
        kind = Kind.SERVED if child.poll() is None else Kind.REFUSED
    return kind, fault or (None if room.files() == before else "files were changed")


def try_runs(room, case, plays):
    """Refuses each request of these runs of the program in turn; each of them says of some that memory is wanting."""
    told = Told()
    for name, play in plays.items():
        before = len(told.numbers[Kind.REFUSED])
        refuse_in_turn(room, told, lambda number, play=play: play(room, case, number))
        if not told.faults and len(told.numbers[Kind.REFUSED]) == before:
            told.faults.append(f"{name}: no request was refused")
    return told


def try_opening(room, case):
    return try_runs(room, case, {"serve": serve_once, "check": check_once})


def try_start(room, case):
    """By few workers, as the clients are more than one of them is given at first."""
    return try_runs(room, case, {f"workers {count}": functools.partial(start_once, workers=count) for count in (1, 2)})


def try_init(room, case):
    return try_runs(room, case, {"init": init_once})
