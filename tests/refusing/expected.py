"""What is to be printed for a case, as a plain map tells."""
import dataclasses

from harness import frames, plain
from harness.plain import Method
from harness.words import reply_text, word_of
from refusing.cases import Store, request_named

SWEPT_STRIPE = 1
NO_MEMORY = "refused 7 NoMemory"
FAILED = "refused 9 Failed"
FORMATTED = "refused 15 AlreadyFormatted"
BROKEN = "broken -"
NO_MEMORY_REPLY = frames.refusal_bytes(plain.NO_MEMORY)
FAILED_REPLY = frames.refusal_bytes(plain.FAILED)


def keeper_line(in_hand, staged, committed, phase):
    return f"  in hand {in_hand}, staged {staged}, committed {committed}, log {phase}"


@dataclasses.dataclass
class Expected:
    """What is printed if nothing is refused, and each that may be printed if one request is."""
    served: list
    refused: list
    # How many growths begin, each of which is put off if its request is refused: `served` is printed then too.
    growths: int = 0
    # Whether a loop that tries again may have been refused, and `served` is printed then too.
    has_loop: bool = False


def again(before, refused, served):
    return [*before, NO_MEMORY, *refused, "again", *served]


def growths_in(store, texts):
    """How many growths the calls begin, which are made."""
    growths = 0
    for text in texts:
        growths += store.is_due(text)
        store.call(text)
    return growths


def calls_of(case):
    """A refused call is as if it was never made; or the growth was put off, and the call is served."""
    def printed(refused_number):
        store = Store(case)
        lines = store.stripe_lines()
        for number, text in enumerate(case.called):
            before = store.stripe_lines()
            position, reply = store.call(text)
            served = [f"held {position}", *store.stripe_lines()]
            lines += ["begin", "end"]
            lines += again([], before, served) if number == refused_number else served
            lines.append(f"reply {position} {reply_text(*reply)}")
            store.sweep(range(case.stripes))
        return lines

    store = Store(case)
    return Expected(printed(None), [printed(number) for number in range(len(case.called))],
                    growths_in(store, case.called))


def sweep_of(case):
    """A sweep has drained the stripes before the one that found no memory; a sweep of one stripe took nothing."""
    def show(store, staged=False):
        hand = (0, len(store.log), 0, "Staged") if staged else (store.in_hand(), 0, 0, "Idle")
        return [*store.stripe_lines(), keeper_line(*hand)]

    def swept(stripes):
        store = Store(case)
        store.sweep(stripes)
        return store

    everything, count = range(case.stripes), len(case.state)
    kind = case.word
    before = swept(everything if kind == "stage_batch" else ())
    after = swept(everything if kind != "try_sweep" else (SWEPT_STRIPE,))
    answer = SWEPT_STRIPE if kind == "try_sweep" else count
    served = [f"answer {answer}", *show(after, kind == "stage_batch")]
    end = [f"swept {count}", "refused 16 WrongPhase" if kind == "stage_batch" else f"staged {count}",
           keeper_line(0, 0, count, "Idle")]
    start = [*show(before), "begin", "end"]
    drained = [range(stripe) for stripe in everything] if kind == "sweep" else [()]
    halves = [swept(stripes) if kind != "stage_batch" else before for stripes in drained]
    return Expected([*start, *served, *end], [[*again(start, show(half), served), *end] for half in halves])


def capture_of(case):
    """A refused capture leaves its phase."""
    store = Store(case)
    store.sweep(range(case.stripes))
    count = len(case.state)
    shown = [*store.stripe_lines(), keeper_line(0, 0, count, "Idle")]
    start = [*shown, "  checkpoint Ready, sections 0", "begin", "end"]
    served = [f"mark {count}", *shown, "  checkpoint Staged, sections 1"]
    return Expected([*start, *served], [again(start, [*shown, "  checkpoint Ready, sections 0"], served)])


def format_of(case):
    """A refused format leaves empty files."""
    served = ["formatted", f"  lengths {36 + 12 * case.stripes} 0 18 0"]
    return Expected(["begin", "end", *served], [again(["begin", "end"], ["  lengths 0 0 0 0"], served)])


def opening_of(case):
    """A refused opening hands the disk back, with which the next one opens. It makes the changes of the log again."""
    growths = growths_in(Store(dataclasses.replace(case, line=f"{case.word} {case.stripes}")), case.state)
    store = Store(case)
    store.sweep(range(case.stripes))
    lines = store.stripe_lines()
    if case.word == "open_parts":
        lines = [f"  part {stripe}:{store.words(stripe)}" for stripe in range(case.stripes)]
    served = [f"opened {len(case.state)}", *lines]
    return Expected(["begin", "end", *served], [again(["begin", "end"], [], served)], growths)


def frames_in(stream):
    read = plain.Bytes(stream)
    while read.rest():
        yield frames.request_of(read.take(read.number(2)))


def replies_of(store, stream, refused_number=None):
    """The replies to a stream, one request of which is refused and changes nothing."""
    return b"".join(NO_MEMORY_REPLY if number == refused_number else frames.reply_bytes(*store.call(request))
                    for number, request in enumerate(frames_in(stream)))


def connection_of(case):
    """A reply of status 87 in the place of one request's, which was not made; or the connection broke off at once."""
    first, *others = map(bytes.fromhex, case.called)

    def printed(refused_number=None, is_broken=False):
        store = Store(case).map
        hexadecimal = "" if is_broken else replies_of(store, first, refused_number).hex().upper()
        behind = [f"ended {replies_of(store, other).hex().upper()}" for other in others]
        return ["begin", "end", BROKEN if is_broken else f"ended {hexadecimal}", *behind]

    count = len(list(frames_in(first)))
    refused = [printed(number) for number in range(count)] + [printed(is_broken=True)]
    # The loop that commits tries again what it was refused, and no reply is another one.
    return Expected(printed(), refused, has_loop=True)


def growing_of(case):
    """A growth that found no memory is put off, and the next change makes it."""
    def printed(is_put_off):
        lines, entries, bins = [], 0, 1
        for text in [*case.state, *case.called]:
            is_due = entries >= bins - (bins >> 2)
            is_refused = is_put_off and is_due and text in case.called
            entries, bins = entries + 1, bins if is_refused or not is_due else 2 * bins
            lines += ["begin", "end"] if text in case.called else []
            lines += ["put off"] if is_refused else []
            lines.append(f"  entries {entries}, bins {bins}")
            is_put_off = is_put_off and not is_refused
        return lines

    return Expected(printed(False), [printed(True)])


def view_of(case):
    """A refused view leaves each stripe free, and draws no ticket."""
    store = Store(case)
    count = len(store.map.entries)
    marks = " ".join([str(len(store.log))] * case.stripes)
    reads = [f"reply {position} {reply_text(*reply)}" for position, reply in map(store.call, case.called)]
    served = [f"viewed, marks {marks}, entries {count}", *reads]
    return Expected(["begin", "end", *served], [again(["begin", "end"], reads, served)])


def viewed_line(method, status, value):
    """The line of what a view returned."""
    if method == Method.count:
        return f"counted {value}"
    if method == Method.search:
        return f"found {'none' if value is None else value}"
    return f"reduced {reply_text(status, value) if status == plain.FAULT else word_of(value)}"


def asked_of(case):
    """A search that finds no memory for its key is refused, and the view stays. Nothing else takes memory."""
    entries = Store(case).map.entries
    questions = [request_named(text) for text in case.called]
    answers = [(method, *plain.viewed(entries, method, arguments)) for method, _, arguments in questions]

    def printed(refused_number):
        lines = []
        for number, answer in enumerate(answers):
            served = [viewed_line(*answer)]
            lines += again(["begin", "end"], [], served) if number == refused_number else ["begin", "end", *served]
        return lines

    found = [number for number, (method, _, key) in enumerate(answers) if method == Method.search and key is not None]
    return Expected(printed(None), [printed(number) for number in found])


READERS = {
    "try_call": calls_of, "call": calls_of, "try_read": calls_of,
    "sweep": sweep_of, "try_sweep": sweep_of, "stage_batch": sweep_of,
    "capture": capture_of, "try_capture": capture_of,
    "open": opening_of, "open_parts": opening_of, "format_memory": format_of, "memory": connection_of, "growing": growing_of,
    "view": view_of, "asked_of_view": asked_of,
}


def is_device_failure(case, lines):
    """Whether a write or a sync of the disk in memory found no memory, which is a failure of the device."""
    if len(lines) < 3:
        return False
    if case.word == "format_memory":
        # A gate that was opened and not synced is found open by the next format.
        _, lengths = format_of(case).served[2:]
        return lines[2] == FAILED and lines[4:] in [["again", answer, lengths] for answer in ("formatted", FORMATTED)]
    if case.word != "memory" or not lines[2].startswith("ended "):
        return False
    first = bytes.fromhex(case.called[0])
    replies = bytes.fromhex(lines[2].split(" ")[1])
    whole = replies_of(Store(case).map, first)
    return (replies.endswith(FAILED_REPLY) and whole.startswith(replies[:-len(FAILED_REPLY)])
            and all(line == f"ended {FAILED_REPLY.hex().upper()}" for line in lines[3:]))
