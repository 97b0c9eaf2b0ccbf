"""Random numbers that are the same for a seed on every machine and with every Python."""

MASK = 2**64 - 1


class Random:
    """The generator splitmix64."""

    def __init__(self, seed):
        self.state = seed & MASK

    def next(self):
        self.state = (self.state + 0x9E3779B97F4A7C15) & MASK
        mixed = self.state
        mixed = ((mixed ^ (mixed >> 30)) * 0xBF58476D1CE4E5B9) & MASK
        mixed = ((mixed ^ (mixed >> 27)) * 0x94D049BB133111EB) & MASK
        return mixed ^ (mixed >> 31)

    def below(self, bound):
        """A number from 0 below the bound."""
        return self.next() % bound

    def between(self, least, most):
        return least + self.below(most - least + 1)

    def chance(self, percent):
        return self.below(100) < percent

    def choice(self, items):
        return items[self.below(len(items))]

    def weighted(self, weights):
        """One of the keys, each as often as its weight says."""
        rest = self.below(sum(weights.values()))
        for key, weight in weights.items():
            if rest < weight:
                return key
            rest -= weight
        raise AssertionError('the weights are no weights')
