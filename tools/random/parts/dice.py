"""Choices that fall the same for the same number, on every machine."""
import random


class Dice:
    """The choices of one case. Only `random.random` is used, whose numbers are the same in every version of Python."""

    def __init__(self, number):
        self.source = random.Random("random project %d" % number)

    def below(self, count):
        """A whole number from 0 to count - 1."""
        return int(self.source.random() * count)

    def between(self, low, high):
        """A whole number from low to high."""
        return low + self.below(high - low + 1)

    def chance(self, percent):
        """Whether something happens that happens so often in a hundred times."""
        return self.source.random() * 100 < percent

    def pick(self, things):
        """One of the things."""
        return things[self.below(len(things))]

    def weighed(self, things):
        """The thing of one of the pairs (thing, weight)."""
        rest = self.below(sum(weight for _, weight in things))
        for thing, weight in things:
            rest -= weight
            if rest < 0:
                return thing

    def shuffled(self, things):
        """The things in some order."""
        left, out = list(things), []
        while left:
            out.append(left.pop(self.below(len(left))))
        return out
