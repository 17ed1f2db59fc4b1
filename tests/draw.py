"""A seeded source of choices, the same on every machine and every python (splitmix64)."""

MASK = 0xFFFF_FFFF_FFFF_FFFF


class Draw:
    def __init__(self, seed):
        self.state = seed & MASK

    def word(self):
        self.state = (self.state + 0x9E37_79B9_7F4A_7C15) & MASK
        mixed = self.state
        mixed = ((mixed ^ (mixed >> 30)) * 0xBF58_476D_1CE4_E5B9) & MASK
        mixed = ((mixed ^ (mixed >> 27)) * 0x94D0_49BB_1331_11EB) & MASK
        return mixed ^ (mixed >> 31)

    def below(self, bound):
        """A number from 0 to bound - 1."""
        return self.word() % bound

    def between(self, low, high):
        return low + self.below(high - low + 1)

    def chance(self, percent):
        return self.below(100) < percent

    def one_of(self, choices):
        return choices[self.below(len(choices))]

    def shuffled(self, choices):
        left, shuffled = list(choices), []
        while left:
            shuffled.append(left.pop(self.below(len(left))))
        return shuffled
