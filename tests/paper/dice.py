"""Draws that come out the same under every Python version."""

MASK = 2 ** 64 - 1


class Dice:
    """SplitMix64; the library's own draws may change between versions."""

    def __init__(self, seed):
        self.word = seed

    def below(self, count):
        self.word = (self.word + 0x9E3779B97F4A7C15) & MASK
        mixed = self.word
        mixed = (mixed ^ mixed >> 30) * 0xBF58476D1CE4E5B9 & MASK
        mixed = (mixed ^ mixed >> 27) * 0x94D049BB133111EB & MASK
        return (mixed ^ mixed >> 31) % count

    def between(self, least, most):
        return least + self.below(most - least + 1)

    def pick(self, items):
        return items[self.below(len(items))]

    def chance(self, percent):
        return self.below(100) < percent

    def bytes(self, count):
        return bytes(self.below(256) for _ in range(count))
