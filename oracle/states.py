"""Positions' states at random: epochs around activation, start and end of unlocking, ends around 2^64, lists that are no position. They are drawn apart from all
else, so that a journal's other lines are the same with them and without."""
import random

import operations
from image import HALF, WORD

WHOLE = WORD - 1
EDGES = [0, 1, 2, HALF - 1, HALF, HALF + 1, WHOLE - 1, WHOLE]


def line(epoch, words):
    """A position's state in an epoch."""
    return f"state {epoch} {operations.field(words)}"


class States:
    def __init__(self, journal, seed, unlocking):
        self.journal, self.unlocking = journal, unlocking
        self.r = random.Random(f"{seed} state")

    def close(self, number):
        """One below, equal, one above."""
        return min(max(0, number + self.r.choice([-1, 0, 1])), WHOLE)

    def number(self):
        return self.r.choice([self.r.choice(EDGES), self.r.randrange(100), self.r.randrange(3_000), self.r.getrandbits(64)])

    def start(self):
        """Any, or around the last one whose end fits."""
        return self.close(WHOLE - self.unlocking) if self.r.random() < .3 else self.number()

    def position(self):
        """Its nine words; the end of unlocking at times before activation."""
        start = self.start()
        activation = self.r.choice([0, self.number(), self.close(start), self.close(start + self.unlocking), max(0, start - self.r.randrange(9))])
        return [self.r.choice([1, 2]), self.number(), activation, self.r.choice([0, 1, 1, 1]), start, *(self.number() for _ in range(4))]

    def epoch(self, words):
        """Around what the words tell."""
        return self.close(self.r.choice([words[2], words[2], words[4], words[4] + self.unlocking, self.number()]))

    def damaged(self, words):
        """Not nine words; another kind; another flag. An epoch goes with any of them."""
        return self.r.choice([
            lambda: [],
            lambda: words[:8],
            lambda: words[:self.r.randrange(9)],
            lambda: words + [self.number()],
            lambda: words + words,
            lambda: words * self.r.choice([3, 3, 3, 256, 257]),
            lambda: [0] + words[1:],
            lambda: [0] * 9,
            lambda: [self.r.choice([3, 3, 3, 4, 256, HALF, WHOLE])] + words[1:],
            lambda: words[:3] + [self.r.choice([2, 2, 2, 3, 256, HALF, WHOLE])] + words[4:],
        ])()

    def some(self):
        """A few lines, or none."""
        for _ in range(self.r.choice([0, 1, 1, 2, 3])):
            words = self.position()
            epoch = self.epoch(words)
            self.journal.say(line(epoch, self.damaged(words) if self.r.random() < .2 else words))
