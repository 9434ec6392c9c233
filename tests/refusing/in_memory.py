"""The cases of the map in memory over the standard streams, while a request of the program is refused from its start on."""
from harness.faulty import NOW
from harness.servers import run_program
from refusing.cases import Store
from refusing.expected import FAILED, FAILED_REPLY, NO_MEMORY
from refusing.rooms import Kind, Told, refuse_in_turn
from refusing.served import played, requests_of, stream_of

ENDED, BROKEN_OFF = 0, 1


def outcomes_of(case):
    """What may come of the program: its status, its replies and standard error, and what kind of a run that is.

    All requests are served; one is replied with 87, and changes nothing; the program says that no memory was found, behind
    a front of the replies; or its disk in memory found none, which is a failure of the device: it ends behind `00028900`,
    or by `refused 9 Failed` if the map wasn't made yet, when nothing is replied.
    """
    def replies(refused=None):
        return played(Store(case).map.entries, requests, refused)[0]

    requests = requests_of(case)
    served = replies()
    yield (ENDED, b"".join(served), ""), Kind.SERVED
    for place in range(len(requests)):
        yield (ENDED, b"".join(replies(place)), ""), Kind.REFUSED
    for place in range(len(requests) + 1):
        front = b"".join(served[:place])
        yield (BROKEN_OFF, front, NO_MEMORY + "\n"), Kind.BROKEN
        yield (ENDED, front + FAILED_REPLY, ""), Kind.FAILED
    yield (BROKEN_OFF, b"", FAILED + "\n"), Kind.FAILED


def mem_once(room, case, outcomes, number):
    """One run: what kind it was, and what is wrong."""
    stream = stream_of(requests_of(case))
    status, replies, said = run_program(room.program, "mem", given=stream, text=False, env=room.environment(number, NOW))
    came = status, replies, said.decode(errors="replace")
    if came in outcomes:
        return outcomes[came], None
    return Kind.FAILED, f"status {status}, replies {replies.hex()}, {came[2]!r}"


def try_memory(room, case):
    """Refuses each request for memory from the start on in turn."""
    told, outcomes = Told(), dict(outcomes_of(case))
    refuse_in_turn(room, told, lambda number: mem_once(room, case, outcomes, number))
    for kind in (Kind.REFUSED, Kind.BROKEN):
        if not told.faults and not told.numbers[kind]:
            told.faults.append(f"no run is of the kind `{kind.value}`")
    return told
