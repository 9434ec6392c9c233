"""Random fills, among them bytes that look like those of a store."""
from harness.files import FILES, GATE, batch, checkpoint, log_end, log_header, record
from harness.plain import FILE_KEY_WIDTHS, Method, value_bytes
from searching.events import NEW, OLD, OPENS, Fill

CLOSED = Fill.of_byte(0)
ALL_ONES = Fill.of_byte(0xFF)
ALL = (1 << 64) - 1


def random_batch(dice, first):
    """A batch with this first ticket, well-formed in one of the versions, and a gate behind it."""
    count, version = 1 if dice.one_in(2) else 2, 1 if dice.one_in(2) else 2
    put = record(Method.put, "a", value_bytes(5), FILE_KEY_WIDTHS[version])
    return batch(first, [put] * count)[1:] + (GATE if dice.one_in(2) else b"\0")


def random_piece(dice, tickets):
    """Something that a store may read, when about so many tickets were drawn."""
    ticket, generation, version = dice.below(tickets + 1), dice.below(6), 1 if dice.one_in(2) else 2
    match dice.below(7):
        case 0:
            return GATE
        case 1:
            return b"\0"
        case 2:
            return random_batch(dice, ticket)
        case 3:
            return log_end(generation)[1:] + GATE
        case 4:
            return log_header(version, generation, ticket) + GATE
        case 5:
            return checkpoint(version, generation, ticket, [(ticket, [])])
    return bytes(dice.byte() for _ in range(dice.below(40)))


def random_length(dice):
    """A length of a file: nothing, all, or some of it."""
    match dice.below(4):
        case 0:
            return 0
        case 1:
            return ALL
        case 2:
            return dice.below(120)
    return dice.below(4000)


def random_choice(dice, tickets):
    """Chosen bytes, and a length for each file."""
    content = b"".join([random_piece(dice, tickets) for _ in range(dice.below(5))])
    return Fill.of_bytes(content, tuple(random_length(dice) for _ in FILES))


def random_fill(dice, tickets):
    match dice.below(12):
        case 0 | 1:
            return OLD
        case 2 | 3:
            return NEW
        case 4:
            return CLOSED
        case 5 | 6:
            return OPENS
        case 7:
            return ALL_ONES
        case 8:
            return Fill.of_byte(dice.byte())
    return random_choice(dice, tickets)


def spelled_batch(version, first, has_gate):
    """A batch of one put with the next ticket, and an open gate behind it; before it an open gate, or none."""
    put = record(Method.put, "a", value_bytes(5), FILE_KEY_WIDTHS[version])
    return Fill.of_bytes(batch(first, [put])[0 if has_gate else 1:] + GATE, (ALL,) * len(FILES))
