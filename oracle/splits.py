"""Splits of a reward at random: weights that are equal, of every size, zero, with sums around multiples of 2^64, too many; rewards around multiples of
the sum, at which few units are left or nearly as many as there are clients. They are drawn apart from all else, so that a journal's other lines are the
same with them and without."""
import random

import operations
from image import HALF, WEIGHTS_ROOM, WORD
from split import MOST

WHOLE = WORD - 1
BEHIND = ["", ",", ",7", ",x", ",,", ",0x12", ",1" * 300]       # what is not looked at


def line(reward, weights):
    """A reward among clients of these weights."""
    return f"split {reward} {operations.field(weights)}"


class Splits:
    def __init__(self, journal, seed):
        self.journal = journal
        self.r = random.Random(f"{seed} split")

    def number(self):
        """Of any length."""
        return self.r.getrandbits(self.r.randrange(65))

    def count(self):
        few, most = self.r.randrange(1, 12), self.r.randrange(1, MOST + 1)
        return self.r.choice([0, 1, 2, 3, few, few, few, most, most, MOST - 1, MOST, MOST, MOST + 1, self.r.randrange(MOST + 1, 400)])

    def summing(self, count, total):
        """So many that add up to this, as far as words do."""
        cuts = sorted(self.r.randrange(total + 1) for _ in range(count - 1))
        return [min(b - a, WHOLE) for a, b in zip([0, *cuts], [*cuts, total])][:count]

    def at_the_edge(self, count):
        """A sum around 2^64, or twice or three times as much; at times the first two or three have it by themselves."""
        total = self.r.choice([1, 1, 1, 1, 2, 3]) * WORD + self.r.choice([-2, -1, -1, -1, 0, 0, 1, 5, self.r.randrange(1_000)])
        first = self.r.choice([count, count, 2, 3])
        return (self.summing(first, total) + self.r.choices([0, 1, 2, self.number()], k=count))[:count]

    def weights(self):
        count, bits, few = self.count(), self.r.randrange(65), [self.number() for _ in range(3)]
        found = self.r.choice([
            lambda: [self.r.choice([1, 2, 7, few[0]])] * count,
            lambda: [0] * count,
            lambda: self.r.choices([0, 1, 2, 3], k=count),
            lambda: self.r.choices(few, k=count),
            lambda: [self.r.getrandbits(bits) for _ in range(count)],
            lambda: [self.r.getrandbits(min(bits, 57)) for _ in range(count)],
            lambda: [self.number() for _ in range(count)],
            lambda: [self.r.choice([1, 2, HALF >> 7, few[0] >> 8]) for _ in range(count)],
            lambda: self.at_the_edge(count),
            lambda: self.at_the_edge(count),
        ])()
        if self.r.random() < .2:
            found = [self.r.choice([0, weight]) for weight in found]
        return found

    def reward(self, total):
        """Any, or around a multiple of the weights' sum: one below it, all but one of those with a weight get a unit more."""
        times = self.r.choice([0, 1, 2, self.r.randrange(100), WHOLE // max(total, 1), self.number()])
        near = total * times + self.r.choice([-2, -1, -1, -1, 0, 1, 2])
        found = self.r.choice([near, near, near, 0, self.r.randrange(100), self.number(), self.r.getrandbits(64), WHOLE - self.r.randrange(3)])
        return min(max(0, found), WHOLE)

    def across_the_end(self):
        """A list of words and a key, which the end of what is kept may fall into; behind it anything where it does."""
        numbers = self.r.choices([0, 1, self.number()], k=WEIGHTS_ROOM - self.r.randrange(1, 7))
        behind = self.r.choice(BEHIND) if len(numbers) + 4 >= WEIGHTS_ROOM else ""
        return f"{line(self.number(), numbers)},0x{self.r.randbytes(32).hex()}{behind}"

    def some(self):
        """A few lines, or none."""
        for _ in range(self.r.choice([0, 0, 1, 1, 2])):
            weights = self.weights()
            self.journal.say(self.across_the_end() if self.r.random() < .03 else line(self.reward(sum(weights)), weights))
