"""The changes that were made, in the order of their tickets, and the map after all of them."""
import dataclasses

from harness.plain import Map


@dataclasses.dataclass
class Change:
    """A change that was made on a stripe. Those of lives that are over are in hand."""
    stripe: int
    request: tuple
    is_in_hand: bool = False


class Past:
    """The history, and the map after it."""

    def __init__(self):
        self.changes, self.map = [], Map()

    @property
    def count(self):
        return len(self.changes)

    def add(self, stripe, request):
        """Makes a change behind all others, and returns its reply."""
        self.changes.append(Change(stripe, request))
        return self.map.call(request)

    def cut(self, count):
        """Leaves the first changes alone, all of them in hand."""
        del self.changes[count:]
        self.map = Map()
        for change in self.changes:
            change.is_in_hand = True
            self.map.call(change.request)

    def take_in_hand(self, stripe):
        """The changes that were made on the stripe are in hand."""
        for change in self.changes:
            change.is_in_hand |= change.stripe == stripe

    def run_from(self, first, most):
        """How many changes from this one on are in hand without a gap, up to the most."""
        behind = self.changes[first:first + most]
        return next((number for number, change in enumerate(behind) if not change.is_in_hand), len(behind))

    def past_outbox(self, stripe):
        """One past the greatest ticket that lies in the outbox of the stripe, or 0."""
        return max((ticket + 1 for ticket, change in enumerate(self.changes)
                    if change.stripe == stripe and not change.is_in_hand), default=0)
