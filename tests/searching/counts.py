"""How often each kind of event, device call and outcome came."""
import collections

from searching.outcomes import SKIPPED, CallKind, Tally, Way

KINDS = ("open", "open with a failing call", "change", "read", "step", "release", "sweep", "keeper step", "stage",
         "log call", "failing log call", "checkpoint call", "failing checkpoint call", "publish", "fail", "begin", "capture",
         "seal", "stop between calls", "stop within a log call", "stop within a checkpoint call", "leave", "old")
EVENTS, MADE = "events", "of them not skipped"
# Each row of the table: its name, and the words of its counts.
ROWS = {kind: (EVENTS, MADE) for kind in KINDS}
ROWS |= {kind.value: tuple(way.value for way in Way) for kind in CallKind}
for tally in Tally:
    ROWS[tally.value[0]] = (*ROWS.get(tally.value[0], ()), tally.value[1])


class Table(collections.Counter):
    """Counts by their rows and words."""

    def note(self, event, outcome):
        """Counts an event, and what came of it."""
        self[event.kind, EVENTS] += 1
        self[event.kind, MADE] += outcome is not SKIPPED
        if outcome.call:
            self[outcome.call.kind.value, outcome.call.way.value] += 1
        if outcome.tally:
            self[outcome.tally.value] += 1

    def cut_calls(self):
        """How many device calls failed or were stopped within."""
        return sum(self[kind.value, way.value] for kind in CallKind for way in (Way.FAILED, Way.STOPPED))

    def __str__(self):
        return "\n".join(f"{row}: " + ", ".join(f"{self[row, word]} {word}" for word in words)
                         for row, words in ROWS.items())
