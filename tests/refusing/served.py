"""The cases of a server: the requests of one connection, while one of the server's requests for memory is refused."""
import contextlib
import dataclasses
import string

from harness import frames, opening, plain
from harness.faulty import NEVER
from harness.frames import body_of, frame
from harness.plain import Method
from harness.servers import Connection, Dchm, dchm, read_to_end, send_to_end
from refusing.cases import Store, request_named
from refusing.directories import first_files
from refusing.expected import NO_MEMORY_REPLY
from refusing.rooms import Kind, Told, refuse_in_turn

# One worker makes all calls of keys, beside the thread that answers questions of the whole map.
WORKERS = 1
# Behind these each thread of the server has begun, and the worker has what it lends to connections.
FIRST = (Method.get, "a", ()), (Method.count, None, ())
# How many connections come before a new one: the worker then has no place for it yet.
IDLE = 4


def requests_of(case):
    return list(map(request_named, case.called))


def reads_of(case):
    """A read of each key that the case names, and of one of each stripe: the letters that follow are of other stripes.

    A count shows that there are no others.
    """
    named = [key for _, key, _ in map(request_named, [*case.state, *case.called]) if key]
    keys = dict.fromkeys([*named, *string.ascii_lowercase[:case.stripes]])
    return [*((Method.get, key, ()) for key in keys), (Method.count, None, ())]


def played(entries, requests, refused=None):
    """The replies of a map with these entries, one request of which is refused; and its entries behind them."""
    store = plain.Running()
    store.entries = dict(entries)
    replies = [NO_MEMORY_REPLY if place == refused else frames.reply_bytes(*store.call(request))
               for place, request in enumerate(requests)]
    return replies, store.entries


def replies_of(entries, requests):
    return b"".join(played(entries, requests)[0])


def changes_in(requests):
    return sum(method in plain.CHANGES for method, _, _ in requests)


def ends_of_rows(requests):
    """Where a row ends: the server begins the requests up to one of the whole map together, and that one alone."""
    places = {0, len(requests)}
    for place, (_, key, _) in enumerate(requests):
        if key is None:
            places |= {place, place + 1}
    return sorted(places)


@dataclasses.dataclass
class Outcome:
    """What may come of a connection: its replies, and then the entries and how many changes were made."""
    kind: Kind
    replies: bytes
    entries: dict
    changes: int


def outcomes_of(case):
    """All are served; one is refused, and not made; or the connection breaks off before a row, which is made or is not."""
    entries, requests = Store(case).map.entries, requests_of(case)

    def outcome(kind, made, answered=None, refused=None):
        replies, after = played(entries, made, refused)
        others = [request for place, request in enumerate(made) if place != refused]
        return Outcome(kind, b"".join(replies[:answered]), after, changes_in(others))

    ends = ends_of_rows(requests)
    yield outcome(Kind.SERVED, requests)
    for place in range(len(requests)):
        yield outcome(Kind.REFUSED, requests, refused=place)
    for end, next_end in zip(ends, ends[1:]):
        for begun in (end, next_end):
            yield outcome(Kind.BROKEN, requests[:begun], answered=end)


def stream_of(requests):
    return b"".join(frame(body_of(request)) for request in requests)


def ask(connection, requests):
    """The replies to requests that are sent in one piece, up to the end of the connection."""
    send_to_end(connection.socket, [stream_of(requests)])
    return read_to_end(connection.socket)


def ask_anew(port, requests):
    with contextlib.closing(Connection(Dchm, port)) as connection:
        return ask(connection, requests)


def ask_served(room, port, requests):
    """The replies to requests over a connection that was served before, while memory is refused."""
    with contextlib.closing(Connection(Dchm, port)) as connection:
        for request in FIRST:
            connection.exchange(frame(body_of(request)))
        room.page.refuse_memory()
        return ask(connection, requests)


def ask_first(room, port, requests):
    """The same over a new connection: none was served before, but one that ended, so that the worker has begun."""
    ask_anew(port, [])
    room.page.refuse_memory()
    with contextlib.ExitStack() as stack:
        for _ in range(IDLE):
            stack.enter_context(contextlib.closing(Connection(Dchm, port)))
        return ask_anew(port, requests)


ASKERS = {"call": ask_served, "connect": ask_first}


def serve(room, case, environment=None):
    return dchm(room.program, room.directory, WORKERS, ("--stripes", str(case.stripes)), environment=environment)


def fault_behind(case, outcomes, again, left, reads):
    """What is wrong with what comes behind these outcomes: the same requests once more, a stop, and another start."""
    requests = requests_of(case)
    wanted, entries = played(outcomes[0].entries, requests)
    prefixes = {len(case.state) + outcome.changes + changes_in(requests) for outcome in outcomes}
    if again != b"".join(wanted):
        return f"asked again: {again.hex()}, not {b''.join(wanted).hex()}"
    if left.entries != entries or left.prefix not in prefixes:
        return f"the files have {left.prefix} changes, {left.entries}, not {prefixes}, {entries}"
    if reads != replies_of(entries, reads_of(case)):
        return f"started again: {reads.hex()}, not {replies_of(entries, reads_of(case)).hex()}"
    return None


def try_number(room, case, outcomes, number):
    """One run: what kind it was, and what is wrong. Other connections are served behind it, and then by the next server."""
    room.make(first_files(case.state, case.stripes))
    with serve(room, case, room.environment(number)) as (_, port):
        replies = ASKERS[case.word](room, port, requests_of(case))
        room.page.refuse_memory(NEVER)
        reads = ask_anew(port, reads_of(case))
        again = ask_anew(port, requests_of(case))
    left = opening.opened(list(room.files().values()))
    with serve(room, case) as (_, port):
        reads_behind = ask_anew(port, reads_of(case))
    came = [outcome for outcome in outcomes
            if outcome.replies == replies and reads == replies_of(outcome.entries, reads_of(case))]
    if not came:
        return Kind.SERVED, f"replies {replies.hex()}, and then {reads.hex()}"
    return came[0].kind, fault_behind(case, came, again, left, reads_behind)


def try_served(room, case):
    """Refuses each request for memory behind the arming of the page in turn."""
    told, outcomes = Told(), list(outcomes_of(case))
    refuse_in_turn(room, told, lambda number: try_number(room, case, outcomes, number))
    if not told.faults and not told.numbers[Kind.REFUSED]:
        told.faults.append("no request was replied with 87")
    return told
