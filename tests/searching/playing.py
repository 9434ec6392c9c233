"""Lists of events are played by a program, and what it prints of each is compared with the reading."""
from harness.servers import play_script
from searching.counts import Table
from searching.reading import Reading


def compared(events, printed, table):
    """The first event of which something else came than it has to, or None. The events up to it are counted."""
    if len(printed) != len(events):
        return f"{len(printed)} lines were printed, of {len(events)}: {printed[-1:]}"
    reading = Reading()
    for number, (event, text) in enumerate(zip(events, printed), 1):
        outcome = reading.wanted(event, text)
        if text != outcome.text:
            return f"line {number}, `{event.line}`, printed `{text}`, and `{outcome.text}` was wanted"
        table.note(event, outcome)
    return None


def play(program, events):
    """Plays a list: what is wrong with it, or None, and the table of its events."""
    table = Table()
    return compared(events, play_script(program, [event.line for event in events], ()), table), table
