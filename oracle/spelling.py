"""A journal whose lines are at times written in another way that means the same: keys in word lists, carriage returns, more spaces, and more than is kept of a long
field, with anything behind that. It is drawn apart from all else, so that the calls are the same as without."""
import collections
import random

import journal
from image import IMAGE_ROOM, MESSAGE_ROOM, POSITIONS_ROOM, WEIGHTS_ROOM

# Behind what is kept of a field nothing is looked at.
BEHIND = ["0", ",", ",0", ",x", ",,,", ",0x", "0x12", "\x7f", "-", ",18446744073709551616" * 9, ",1" * 70_000, "f" * 140_000]
LISTS = {"payment": [8], "state": [2], "stake-account": [6, 8], "image": [1], "split": [2]}     # the places of fields
KEYS, RETURNS, MESSAGES, POSITIONS, IMAGES, WEIGHTS = WAYS = ["keys in a list", "a carriage return", "a longer message", "longer positions", "a longer image",
                                                              "longer weights"]
ROOMS = {"image": (IMAGE_ROOM, IMAGES), "split": (WEIGHTS_ROOM, WEIGHTS)}       # other lists are of positions


def digits(r, words):
    """Four words as a key."""
    key = b"".join(word.to_bytes(8, "little") for word in words).hex()
    return "0x" + r.choice([key, key.upper(), "".join(r.choice([c, c.upper()]) for c in key)])


class Spelled(journal.Journal):
    def __init__(self, seed):
        super().__init__()
        self.r = random.Random(f"{seed} spelling")
        self.ways = collections.Counter()       # lines by what is written otherwise

    def keys(self, field, of_positions):
        """Some of its words, four at a time, as keys; of a position the last four."""
        items = field.split(",")
        ends = range(9, len(items) + 1, 9) if of_positions else self.r.sample(range(4, len(items) + 1), min(len(items) // 4, 5))
        for end in sorted(ends, reverse=True):
            four = items[end - 4:end]
            if self.r.random() < .8 and all(map(str.isdigit, four)):
                items[end - 4:end] = [digits(self.r, map(int, four))]
        self.ways[KEYS] += any(item.startswith("0x") for item in items)
        return ",".join(items)

    def list(self, field, name):
        """What is behind its room begins with a comma."""
        room, way = ROOMS.get(name, (POSITIONS_ROOM, POSITIONS))
        if field.count(",") >= room - 1:
            self.ways[way] += 1
            return field + "," + self.r.choice(BEHIND)
        return self.keys(field, name not in ROOMS) if self.r.random() < .4 else field

    def message(self, field):
        if len(field) < 2 * MESSAGE_ROOM:
            return field
        self.ways[MESSAGES] += 1
        return field + self.r.choice(BEHIND)

    def spelled(self, text):
        """The line in another way, or as it is."""
        name, *fields = text.split(" ")
        for place in (at - 1 for at in LISTS.get(name, []) if at <= len(fields)):
            fields[place] = self.list(fields[place], name)
        if name in ("advance", "forecast"):
            fields[4] = self.message(fields[4])
        gap, end = self.r.choice([" "] * 30 + ["   "]), self.r.choice([""] * 20 + ["\r", " ", "  \r"])
        self.ways[RETURNS] += end.endswith("\r")
        return gap.join([name, *fields]) + end

    def say(self, text):
        return super().say(self.spelled(text))
