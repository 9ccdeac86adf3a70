"""Journals at random, on pools of one P, E and settings: lists of calls from a fresh pool, made-up images, damaged inputs.

What is written next depends on the image that the model keeps, so that amounts, epochs and custody come close to the edges. Here
are fresh, advance and forecast; payments.py adds its own, levels.py says how often each list comes.
"""
import copy
import random

import model
from image import IMAGE_ROOM, MESSAGE_ROOM
from model import HALF, WORD, Advance
from splits import Splits
from states import States

EDGES = [0, 1, 2, HALF - 1, HALF, HALF + 1, WORD - 2, WORD - 1]
SCALES = [10, 1_000, 10**6, 10**9, 10**9, 10**12, 10**12, 2**40, 2**50, 2**56, 2**61, HALF]
LARGE = 20_000      # words; such an image is not looked at after each call


def key_of(text):
    return bytes.fromhex(text).ljust(32, b"\0")


# Keys that differ in the place of one byte, or at the end: their order as words is not that of their bytes.
ORDERED = [key_of(t) for t in ("01", "0001", "00" * 7 + "01", "00" * 8 + "01", "00" * 16 + "01", "00" * 30 + "01",
                               "00" * 31 + "01", "00" * 31 + "ff", "0100" * 2, "7f" + "ff" * 31, "80", "ff" * 31, "ff" * 32)]


def keys(r, count):
    """Different keys, ascending."""
    prefix = r.randbytes(31)
    found = set(r.sample(ORDERED, min(len(ORDERED), count // 2)))
    while len(found) < count:
        found.add(prefix + r.randbytes(1) if r.random() < .3 and len(found) < 200 else r.randbytes(32))
    return sorted(found - {model.ZERO_KEY})


def message(time, rows, kind=2):
    """Rows are of 40 bytes, key and cap."""
    return bytes([kind]) + time.to_bytes(8, "big") + len(rows).to_bytes(2, "big") + b"".join(rows)


def rows_of(m):
    """As many of its rows as are whole."""
    return [m[at:at + 40] for at in range(11, len(m) - 39, 40)][:int.from_bytes(m[9:11], "big")]


def with_rows(m, rows):
    return m[:9] + len(rows).to_bytes(2, "big") + b"".join(rows)


def with_time(m, time):
    return m[:1] + (time % WORD).to_bytes(8, "big") + m[9:]


def with_count(m, count):
    return m[:9] + count.to_bytes(2, "big") + m[11:]


def line(name, a):
    return f"{name} {a.now} {a.y} {a.custody} {a.verified} {a.message.hex() or '-'}"


class Generator:
    def __init__(self, journal, seed, p, e, seconds, unlocking):
        self.journal, self.site = journal, journal.site
        self.r = random.Random(f"{seed} {p} {e} {seconds} {unlocking}")
        self.tables = random.Random(f"{seed} {p} {e} {seconds} {unlocking} show")
        self.states = States(journal, f"{seed} {p} {e} {seconds} {unlocking}", unlocking)
        self.splits = Splits(journal, f"{seed} {p} {e} {seconds} {unlocking}")
        self.p, self.e, self.seconds, self.unlocking = p, e, seconds, unlocking
        self.most_now = (HALF - 1) // seconds if seconds else HALF - 1
        self.keys = keys(self.r, p + 4)
        others = [k for k in keys(self.r, 1_100) if k not in self.keys]
        self.crowd = sorted((self.keys + others)[:1_024])
        self.scale = 1_000
        journal.say(f"settings {seconds} {unlocking}")
        journal.say(f"new {p} {e}")

    def last(self):
        return self.site.words[0] if self.site.words else 0

    def claimable(self):
        return self.site.words[1] if len(self.site.words) > 1 else 0

    def call(self, name, a):
        """An advance or a forecast; an advance's image is looked at."""
        self.journal.say(line(name, a))
        if name == "advance" or self.r.random() < .1:
            self.look()

    def look(self):
        large = len(self.site.words) > LARGE
        if large and self.r.random() < .7:
            return
        self.journal.say("image" if not large and self.r.random() < .1 else "nonzero")
        if self.tables.random() < (.02 if large else .04):
            self.journal.say("show")

    # Numbers.

    def word(self):
        kind = self.r.random()
        if kind < .5:
            return self.r.choice(EDGES)
        return self.r.randrange(100) if kind < .8 else self.r.getrandbits(64)

    def new_scale(self):
        """That of a list's amounts."""
        return max(2, self.r.choice(SCALES) // self.p)

    def amount(self):
        return self.r.choice(EDGES) if self.r.random() < .05 / self.p else self.r.randrange(self.scale)

    def change(self, total):
        """A signed change, at times to the edge of what the total bears or over it."""
        kind = self.r.random()
        if kind < .4:
            return 0
        if kind < 1 - .1 / self.p:
            return self.r.randrange(-total, self.scale) % WORD
        return self.r.choice([-total, -total - 1, -total + 1, HALF - 1 - total, HALF - total, HALF, HALF - 1]) % WORD

    def passed(self):
        kind = self.r.random()
        e = self.e
        if kind < .6:
            return self.r.choice([1, 1, 1, 2])
        if kind < .85:
            return self.r.choice([max(1, e - 1), e, e + 1, 2 * e, 2 * e + 1, 3])
        if kind < .965:
            return self.r.randrange(1, 700)
        if kind < .985:
            return self.r.choice([self.r.randrange(1_000, 20_000), 99_999, 100_000])
        return self.r.choice([100_001, 2**32, 2**40, 2**62, self.r.randrange(2**62), max(1, self.most_now - self.last())])

    def y(self):
        return self.r.choice([10_000, 10_000, 10_000, 9_999, 1, 0, self.r.randrange(10_001)])

    def time(self, now):
        """A time within the epoch, where it has one."""
        start = now * self.seconds
        time = start + self.r.choice([0, max(0, self.seconds - 1), self.r.randrange(max(1, self.seconds))])
        return time if time < HALF else min(start, HALF - 1)

    def most_aside(self, site, a, name):
        """R, or 0 where it isn't worked out."""
        whole = a._replace(custody=WORD - 1)
        try:
            return site.forecast(whole)[0] if name == "forecast" else site.worked_out(whole)[3][1]
        except model.Refused:
            return 0

    def custody(self, a, name):
        """Around what is claimable, and around the sum with what would be set aside."""
        claimable, r = self.claimable(), self.most_aside(self.site, a, name)
        edge = claimable + r
        near = [edge - 1, edge, edge, edge + 1, claimable + self.r.randrange(r + 1), (claimable + edge) // 2, claimable,
                claimable + 1, WORD - 1, WORD - 1, self.r.getrandbits(64)]
        if self.r.random() < .1:
            return self.drained(claimable)
        return min(max(0, self.r.choice(near)), WORD - 1)

    def drained(self, claimable):
        """Below what is claimable: one below, half of it, nothing."""
        return self.r.choice([max(0, claimable - 1), claimable // 2, 0])

    # Advances that are refused for their figures, if at all.

    def rows(self):
        kind = self.r.randrange(8)
        if self.r.random() < .004:
            chosen = self.crowd
        elif kind == 0:
            chosen = []
        elif kind == 1:
            chosen = self.keys
        elif kind == 2:
            chosen = self.keys[:self.r.randrange(len(self.keys))]
        else:
            share = self.r.choice([.2, .5, .8])
            chosen = [k for k in self.keys if self.r.random() < share]
        return [key + (self.amount() if self.r.random() < .9 else WORD - 1).to_bytes(8, "big") for key in chosen[:1_024]]

    def plain(self, name="advance"):
        last, passed = self.last(), self.passed()
        now = last + passed if last + passed <= self.most_now else min(last + 1, WORD - 1)
        a = Advance(now, self.y(), 0, 1, message(self.time(now) % WORD, self.rows(), self.r.choice([2, 0, 255])), self.seconds)
        return a._replace(custody=self.custody(a, name))

    # Damaged ones.

    def damaged_numbers(self, a):
        last, now = self.last(), a.now
        return self.r.choice([
            lambda: a._replace(y=self.r.choice([10_001, 20_000, HALF, WORD - 1])),
            lambda: a._replace(verified=self.r.choice([0, 2, 256, 257, WORD - 1])),
            lambda: a._replace(now=self.r.choice([last, max(0, last - 1), 0])),
            lambda: a._replace(now=last, message=with_time(a.message, last * self.seconds)),
            lambda: a._replace(now=min(now + 1, WORD - 1)),
            lambda: a._replace(message=with_time(a.message, now * self.seconds - 1)),
            lambda: a._replace(message=with_time(a.message, (now + 1) * self.seconds)),
            lambda: a._replace(message=with_time(a.message, self.r.choice([HALF, WORD - 1, HALF + now * self.seconds]))),
            lambda: a._replace(custody=self.r.choice([0, max(0, self.claimable() - 1)])),
        ])()

    def damaged_message(self, m):
        rows = rows_of(m) or [self.r.choice(self.keys) + bytes(8)]
        at = self.r.randrange(len(rows))
        count = len(rows)
        return self.r.choice([
            lambda: b"",
            lambda: m[:10],
            lambda: m[:11],
            lambda: m[:-1],
            lambda: m[:self.r.randrange(len(m))],
            lambda: with_count(m, self.r.choice([count + 1, count - 1, 1_024, 1_025, 65_535, 256 * (count % 256)])),
            lambda: m + self.r.randbytes(self.r.choice([1, 39, 40, 41])),
            lambda: with_rows(m, (rows[:at] + [rows[at]] + rows[at:])[:1_024]),
            lambda: with_rows(m, rows[::-1]),
            lambda: with_rows(m, rows[:at] + rows[at + 1:at + 2] + rows[at:at + 1] + rows[at + 2:]),
            lambda: with_rows(m, ([bytes(32) + rows[0][32:]] + rows)[:1_024]),
            lambda: with_rows(m, rows[:at] + [bytes(32) + rows[at][32:]] + rows[at + 1:]),
            lambda: with_rows(m, sorted(rows, key=lambda row: model.words_of(row[:32]))),
            lambda: with_rows(m, sorted(rows, key=lambda row: model.words_of(row[:32])[::-1])),
        ])()

    def long_message(self, m):
        """Of the most bytes that are accepted, or one more; with 1,024 rows or 1,025."""
        full = with_rows(m, [key + bytes(8) for key in self.crowd])
        return self.r.choice([full, full, full + b"\0", full[:-1], with_count(full, 1_025), m.ljust(40_971, b"\xff"),
                              m.ljust(40_972, b"\xff"), with_rows(full, rows_of(full)[:-2] + rows_of(full)[:-3:-1])])

    def damaged(self, a):
        for _ in range(self.r.choice([1, 1, 1, 2, 3])):
            if self.r.random() < .5:
                a = self.damaged_numbers(a)
            elif self.r.random() < .03:
                a = a._replace(message=self.long_message(a.message))
            elif len(a.message) > 11:
                a = a._replace(message=self.damaged_message(a.message))
        return a._replace(message=a.message[:MESSAGE_ROOM])

    # Images.

    def staked(self):
        """The image with amounts, fees and what is claimable put in by hand."""
        pool = self.site.pool()
        words = list(pool.words)
        for seat in range(self.p):
            for side in (pool.own, pool.other):
                if self.r.random() < .6:
                    total = self.amount()
                    words[side + 2 * seat:side + 2 * seat + 2] = [total, self.change(total)]
            if self.r.random() < .3:
                words[pool.fees + seat] = self.r.choice([0, 1_000_000, self.r.randrange(1_000_001), self.word()])
        if self.r.random() < .2:
            words[1] = self.amount()
        return words

    def made_up_key(self):
        kind = self.r.random()
        if kind < .08:
            return [0, 0, 0, 0]
        if kind < .15:
            return [self.word() if self.r.random() < .4 else 0 for _ in range(4)]
        return model.words_of(self.r.choice(self.keys))

    def made_up_side(self):
        if self.r.random() < 1 / (4 * self.p):
            return [self.word(), self.word()]
        total = self.amount()
        return [total, self.change(total) if self.r.random() < .5 else 0]

    def made_up_n(self):
        turns = self.r.choice([0, 1, 2, 2**32, 2**57, (HALF - 1) // self.e]) * self.e
        n = self.r.choice([turns + self.r.randrange(-2, 3), self.r.randrange(100), HALF - self.r.randrange(1, 1_000), HALF - 1])
        return max(0, n)

    def made_up_last(self):
        most = self.most_now
        return self.r.choice([0, 1, 9, self.r.randrange(3_000), most - 1, most - 52, self.r.randrange(most + 1), most, HALF, WORD - 1,
                              WORD - 2]) % WORD

    def made_up(self):
        """The words of an image that no list of calls leaves."""
        self.scale = self.new_scale()
        pool = model.Pool(self.p, self.e, [0] * model.length(self.p, self.e))
        words = pool.words
        density = self.r.choice([0, 0, .02, .02, 1]) if len(words) < 500 else .005
        for at in range(len(words)):
            if self.r.random() < density:
                words[at] = self.word()
        words[0] = self.made_up_last()
        words[1] = self.r.choice([0, self.amount(), self.word()])
        words[2:2 + 4 * self.p] = [w for _ in range(self.p) for w in self.made_up_key()]
        words[pool.other:pool.stake_accounts] = [w for _ in range(2 * self.p) for w in self.made_up_side()]
        words[pool.n] = self.made_up_n()
        return words

    # What a level is made of.

    def fresh(self):
        epoch = self.r.choice([1, 2, 10, self.r.randrange(1, 3_000), self.r.randrange(1, 3_000), max(1, self.most_now - 1_000)])
        if self.r.random() < .1:
            self.journal.say("fresh 0")
            self.look()
        if self.r.random() < .02:
            epoch = WORD - 1
        self.journal.say(f"fresh {epoch}")
        self.look()

    def step(self):
        if self.r.random() < .4:
            self.call("forecast", self.plain("forecast"))
        a = self.plain()
        if self.r.random() < .5:
            self.call(self.r.choice(["advance", "advance", "forecast"]), self.damaged(a))
        a = a if a.now > self.last() else self.plain()
        if self.r.random() < .3:
            self.call("forecast", a)
        self.call("advance", a)

    def grown_list(self):
        self.scale = self.new_scale()
        self.fresh()
        for _ in range(self.r.randrange(2, 9)):
            if self.r.random() < .7:
                self.journal.put(self.staked())
            self.step()

    def made_up_list(self):
        self.journal.put(self.made_up())
        for _ in range(self.r.randrange(1, 3)):
            self.step()

    def sum_at_the_edge(self):
        """One seat, and stake so that T is around 2^64; or so much claimable that the sum with R is."""
        passed = self.r.choice([2, 2, 3, 4, 5, self.r.randrange(2, 1_000)])
        last = self.r.randrange(3_000)
        t = self.r.choice([WORD - 2, WORD - 1, WORD, WORD + 1])
        later = WORD // passed - self.r.choice([0, 0, 1])
        first = t - later * (passed - 1)
        pool = model.Pool(self.p, self.e, [0] * model.length(self.p, self.e))
        words = pool.words
        for side, total, after in ((pool.own, first // 2, later // 2), (pool.other, first - first // 2, later - later // 2)):
            words[side:side + 2] = [total, (after - total) % WORD]
        key = self.r.choice(self.keys)
        words[0], words[2:6] = last, model.words_of(key)
        m = message(self.time(last + passed) % WORD, [key + (WORD - 1).to_bytes(8, "big")])
        a = Advance(last + passed, self.y(), WORD - 1, 1, m, self.seconds)
        if self.r.random() < .5 and t < WORD:
            words[1] = WORD - 1 - t * a.y // model.M + self.r.randrange(-1, 2)
        words[1] = min(words[1], WORD - 1)
        if self.r.random() < .5:
            a = a._replace(custody=self.drained(words[1]))
        self.journal.put(words)
        self.call("forecast", a)
        self.call("advance", a)

    def to_drain(self, a):
        """What is claimable ahead of an advance on a drained custody: at times its sum with R is around 2^64."""
        site = copy.copy(self.site)
        site.words = [site.words[0], 0] + site.words[2:]
        edge = WORD - 1 - self.most_aside(site, a, self.r.choice(["advance", "forecast"])) + self.r.randrange(-1, 2)
        return min(self.r.choice([1, 2, self.amount() + 1, max(1, self.claimable()), edge, edge]), WORD - 1)

    def drained_list(self):
        """Stake, and a custody from which a sponsor has withdrawn at each advance; then one as any."""
        self.scale = self.new_scale()
        self.fresh()
        self.journal.put(self.staked())
        for _ in range(self.r.randrange(1, 4)):
            a, words = self.plain(), list(self.site.words)
            words[1] = self.to_drain(a)
            self.journal.put(words)
            a = a._replace(custody=self.drained(words[1]))
            self.call("forecast", a)
            self.call("advance", a)
        self.step()

    def all_calls(self, a):
        self.call("forecast", a)
        self.call("advance", self.damaged(a) if self.r.random() < .3 else a)
        self.journal.say(f"fresh {self.r.choice([0, 1, 10])}")
        self.look()

    def other_image(self):
        """Of another length, or with an n out of range."""
        a, words = self.plain(), self.site.words
        n = self.site.pool().n
        kinds = [words[:-1], (words + [0])[:IMAGE_ROOM], [], words[:self.r.randrange(len(words))], (words + words)[:IMAGE_ROOM],
                 words[:n] + [self.r.choice([HALF, HALF + 1, WORD - 1])] + words[n + 1:]]
        if self.r.random() < .03:
            kinds = [words + [0] * (IMAGE_ROOM - len(words))]
        self.journal.put(self.r.choice(kinds + kinds[-1:]))
        self.all_calls(a)
        self.journal.put(words)

    def other_sizes(self):
        """P or E out of range, with no words, with as many as they would have, and with those of a good one."""
        a, words, p, e = self.plain(), self.site.words, self.p, self.e
        p, e = self.r.choice([(0, e), (1_025, 1), (p, 0), (p, 53), (0, 0), (WORD - 1, e), (p, WORD - 1), (HALF, 2), (WORD - 1, WORD - 1)])
        self.journal.say(f"new {p} {e}")
        self.all_calls(a)
        count = model.length(p, e) % WORD
        self.journal.put([0] * count if count <= IMAGE_ROOM and self.r.random() < .5 else words)
        self.all_calls(a)
        self.journal.say(f"new {self.p} {self.e}")
        self.journal.put(words)
