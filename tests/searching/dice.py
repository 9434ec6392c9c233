"""Random numbers that a seed decides, the same on each machine."""

WORD = (1 << 64) - 1


class Dice:
    """A source of random numbers: a state that grows by a fixed odd step, and is mixed."""

    def __init__(self, state):
        self.state = state

    @classmethod
    def of_list(cls, seed, number):
        """The source for the list with this number."""
        return cls(cls(cls(seed).draw() ^ number).draw())

    def draw(self):
        """The next number of 64 bits."""
        self.state = (self.state + 0x9E3779B97F4A7C15) & WORD
        mixed = self.state
        mixed = ((mixed ^ (mixed >> 30)) * 0xBF58476D1CE4E5B9) & WORD
        mixed = ((mixed ^ (mixed >> 27)) * 0x94D049BB133111EB) & WORD
        return mixed ^ (mixed >> 31)

    def below(self, limit):
        return self.draw() % limit

    def one_in(self, times):
        """True once in so many times."""
        return self.below(times) == 0

    def byte(self):
        return self.draw() & 0xFF

    def pick(self, choices):
        """One of them, each as often as the others."""
        return choices[self.below(len(choices))]
