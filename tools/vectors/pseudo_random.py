"""Pseudo-random numbers that follow from the seed alone, whatever the version of Python."""


class PseudoRandom:
    """Marsaglia's xorshift generator with a state of 32 bits."""

    def __init__(self, seed):
        """`seed` is a number from 1 to 2^32 - 1."""
        self.state = seed

    def word(self):
        """The next number from 1 to 2^32 - 1."""
        self.state ^= (self.state << 13) & 0xFFFFFFFF
        self.state ^= self.state >> 17
        self.state ^= (self.state << 5) & 0xFFFFFFFF
        return self.state

    def below(self, bound):
        """A number from 0 to `bound` - 1."""
        return self.word() * bound >> 32

    def between(self, low, high):
        """A number from `low` to `high`, both included."""
        return low + self.below(high - low + 1)

    def chance(self, one_in):
        """True once in `one_in` times."""
        return self.below(one_in) == 0

    def pick(self, items):
        """One of the items of a sequence."""
        return items[self.below(len(items))]
