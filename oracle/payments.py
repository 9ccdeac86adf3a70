"""Payments at random: on lists of calls from a fresh pool, on made-up images, at the edges of what fits, damaged."""
import copy

import model
from generate import LARGE, Generator
from model import HALF, M, MOST_POSITIONS, WORD, ZERO_KEY, Payment

WHOLE = WORD - 1
# Past what an advance writes: y is at most 10,000, ratios and fees are at most M.
LARGE_FIGURES = [M, M + 1, 2 * M, 2**32, 2**44, HALF, WHOLE]
# y and ratio of rates around 2^64; the first of a pair fits.
RATES = [(M, WHOLE), (M + 1, WHOLE), (WHOLE, M), (WHOLE, M + 1), (5**6 * 2**38, 2**32 - 1), (5**6 * 2**38, 2**32), (2**42, 2**41), (2**44, 2**44),
         (WHOLE, WHOLE)]


def line(p):
    other = "none" if p.publisher_account is None else p.publisher_account.hex()
    words = ",".join(map(str, p.positions)) or "-"
    return f"payment {p.now} {p.publisher.hex()} {p.account.hex()} {p.record_epoch} {p.next_index} {other} {p.custody_flag} {words}"


def position(key, amount, activation=0, start=None, kind=2):
    """Its nine words."""
    return [kind, amount, activation, int(start is not None), start or 0, *model.words_of(key)]


class Payments(Generator):
    def __init__(self, *given):
        super().__init__(*given)
        self.accounts = [ZERO_KEY, ZERO_KEY] + [self.r.randbytes(32) for _ in range(3)]

    # Numbers.

    def close(self, number):
        return min(max(0, number + self.r.choice([-1, 0, 0, 0, 1])), WHOLE)

    def other_key(self, key):
        """One that differs in a single bit, the zero key, or any."""
        bit = 1 << self.r.choice([self.r.randrange(256), self.r.randrange(8), self.r.randrange(248, 256)])
        return self.r.choice([(int.from_bytes(key, "big") ^ bit).to_bytes(32, "big"), ZERO_KEY, self.r.randbytes(32), self.r.choice(self.keys)])

    def epochs(self):
        """Of the newest events, newest first."""
        pool = self.site.pool()
        return [pool.words[at] for at in model.walked(pool, 0)[0]]

    def epoch(self, epochs):
        if epochs and self.r.random() < .8:
            return self.close(self.r.choice(epochs))
        return self.r.choice([0, self.last(), self.close(self.last()), self.word()])

    def start(self, epochs):
        """At times around the last one whose end fits."""
        if self.r.random() < .02:
            return min(max(0, WORD - self.unlocking + self.r.randrange(-2, 2)), WHOLE)
        if self.unlocking == WHOLE:
            return 0 if self.r.random() < .9 else 1
        return self.epoch(epochs) if self.r.random() < .7 else min(self.last() + self.r.randrange(3), HALF)

    # Positions.

    def stake_amount(self, scale):
        kind = self.r.random()
        if kind < .05:
            return 0
        return self.word() if kind < .06 else self.r.randrange(scale)

    def position(self, publisher, epochs, scale):
        kind = self.r.random()
        if kind < .1:
            return [0] + [self.word() for _ in range(8)]
        key = publisher if kind < .85 else self.other_key(publisher)
        activation = self.r.choice([0, min(epochs, default=0), self.epoch(epochs)])
        start = self.start(epochs) if self.r.random() < .4 else None
        nine = position(key, self.stake_amount(scale), activation, start, 1 if kind < .2 else 2)
        if start is None and self.r.random() < .3:
            nine[4] = self.epoch(epochs)    # a start that is not there
        return nine

    def positions(self, publisher, epochs):
        kind = self.r.random()
        count = self.r.choice([0, 1, 1, 1, 2, 2, 3, 4, 5, 6])
        if kind < .1:
            count = self.r.randrange(7, 31)
        elif kind < .115:
            count = self.r.choice([MOST_POSITIONS, MOST_POSITIONS - 1])
        scale = max(2, self.scale // self.r.choice([1, 1, 4, 16, 64]))
        found = [self.position(publisher, epochs, scale) for _ in range(count)]
        if found and self.r.random() < .8:
            found[self.r.randrange(count)] = position(publisher, self.r.randrange(scale))
        return [w for nine in found for w in nine]

    # Payments that are refused for their figures, if at all.

    def record_epoch(self, epochs):
        kind = self.r.random()
        if kind < .5 or not epochs:
            return self.r.choice([0, 0, min(epochs, default=0)])
        if kind < .9:
            return self.close(self.r.choice(epochs))
        return self.r.choice([self.last(), min(self.last() + 1, WHOLE), max(epochs), WHOLE, self.word()])

    def publisher_account(self, stake_account):
        """The account and the custody flag that the seat asks for."""
        flag = self.r.choice([1, 1, 1, 2, WHOLE])
        if stake_account == ZERO_KEY:
            return self.r.choice([(None, 0), (None, flag), (ZERO_KEY, flag)])
        return stake_account, flag

    def seat(self, pool):
        """The key of an occupied seat and its first seat, or a key that has none."""
        some = range(self.p) if self.p <= 16 else self.r.sample(range(self.p), 16) + [0, self.p - 1]
        occupied = [key for key in map(pool.key, some) if key != ZERO_KEY]
        if not occupied:
            return self.r.choice(self.keys), 0
        key = self.r.choice(occupied)
        return key, pool.seat_of(key)

    def payment(self, positions=None):
        pool, epochs = self.site.pool(), self.epochs()
        publisher, seat = self.seat(pool)
        stake_account = pool.stake_account(seat)
        account = self.r.choice([stake_account, stake_account, *self.accounts, self.other_key(stake_account)])
        positions = self.positions(publisher, epochs) if positions is None else positions
        return Payment(self.last(), publisher, account, self.record_epoch(epochs), self.word(), *self.publisher_account(stake_account),
                       positions, self.unlocking)

    # Damaged ones.

    def damaged_positions(self, words):
        words = words or position(self.r.choice(self.keys), 1)
        at = 9 * self.r.randrange((len(words) + 8) // 9)
        long = (words * (1 + 9 * MOST_POSITIONS // len(words)))[:9 * MOST_POSITIONS]
        wrong = self.r.choice([2, 3, 256, HALF, WHOLE])
        return self.r.choice([
            lambda: words[:-self.r.randrange(1, 9)],
            lambda: words[:len(words) - 1],
            lambda: (words + [0] * self.r.randrange(1, 10))[:9 * MOST_POSITIONS + 9],
            lambda: words[:at] + [self.r.choice([3, 4, 257, HALF, WHOLE])] + words[at + 1:],
            lambda: words[:at] + [self.r.choice([1, 2])] + words[at + 1:at + 3] + [wrong] + words[at + 4:],
            lambda: words[:at] + [0] + words[at + 1:at + 3] + [wrong] + words[at + 4:],
            lambda: long + [0] * 9 if self.r.random() < .2 else words[:-1],
            lambda: [0] * 9 * (MOST_POSITIONS + self.r.randrange(2)) if self.r.random() < .2 else words[:-1],
        ])()

    def damaged_payment(self, p):
        for _ in range(self.r.choice([1, 1, 1, 2, 3])):
            other_account = self.r.choice([None, ZERO_KEY, self.other_key(p.publisher_account or ZERO_KEY), self.r.choice(self.accounts)])
            p = self.r.choice([
                lambda: p._replace(now=self.r.choice([max(0, p.now - 1), min(p.now + 1, WHOLE), self.word()])),
                lambda: p._replace(publisher=ZERO_KEY),
                lambda: p._replace(publisher=self.other_key(p.publisher)),
                lambda: p._replace(publisher_account=other_account),
                lambda: p._replace(publisher_account=other_account, custody_flag=0),
                lambda: p._replace(custody_flag=0),
                lambda: p._replace(publisher_account=p.publisher_account or ZERO_KEY, custody_flag=0),
                lambda: p._replace(positions=self.damaged_positions(p.positions)),
            ])()
        return p

    # Calls.

    def pay(self, p):
        self.journal.say(line(p))
        if len(self.site.words) < 500 or self.r.random() < .2:
            self.look()

    def tuned(self, p):
        """The same image with what is claimable around what this payment takes, in the Rust."""
        site = copy.copy(self.site)
        site.as_the_rust = True
        try:
            paid = sum(site.earned(p)[2])
        except model.Refused:
            return
        claimable = self.r.choice([paid, paid, paid - 1, paid - 1, paid + 1, 2 * paid, WHOLE])
        words = list(self.site.words)
        words[1] = min(max(0, claimable), WHOLE)
        self.journal.put(words)

    def payments(self, count, tuned):
        """Some of them on an image that has been tuned to them, some of them damaged."""
        for _ in range(count):
            p = self.payment()
            if self.r.random() < tuned and len(self.site.words) < LARGE:
                self.tuned(p)
            self.pay(self.damaged_payment(p) if self.r.random() < .3 else p)

    # Images and advances that leave something to pay.

    def new_scale(self):
        return max(super().new_scale(), self.r.choice([2, 10**6, 10**9]))

    def custody(self, a, name):
        return WHOLE if self.r.random() < .6 else super().custody(a, name)

    def rows(self):
        if self.r.random() < .5:
            return super().rows()
        return [key + self.r.choice([WHOLE, self.scale]).to_bytes(8, "big") for key in self.keys[:1_024]]

    def y(self):
        return self.r.choice([10_000, 10_000, 10_000, 9_999, self.r.randrange(10_001), super().y()])

    def staked(self):
        words, pool = super().staked(), self.site.pool()
        for seat in range(self.p):
            if self.r.random() < .2:
                at = pool.stake_accounts + 4 * seat
                words[at:at + 4] = model.words_of(self.r.choice(self.accounts))
        return words

    def ring_epochs(self, count, last):
        """As advances leave them, with gaps, with one out of order, in no order, any."""
        step = self.r.choice([1, 1, 1, 2, 1_000])
        epochs = [max(0, last - 1 - step * j) for j in range(count)]
        kind = self.r.random()
        if kind < .2 and count:
            at = self.r.randrange(count)
            epochs[at] = self.r.choice([0, epochs[-1], max(0, epochs[-1] - 1), self.close(epochs[at]), epochs[0], min(last + 5, WHOLE), WHOLE])
        elif kind < .3:
            self.r.shuffle(epochs)
        elif kind < .35:
            epochs = [self.word() for _ in epochs]
        return epochs

    def figure(self, wild, tame):
        return self.r.choice(LARGE_FIGURES + [self.word()]) if wild and self.r.random() < .2 else tame

    def ratio(self):
        return self.r.choice([M, M, M, 0, self.r.randrange(M + 1), self.r.randrange(M + 1), self.r.randrange(M + 1)])

    def fill_ring(self, pool):
        """The newest events as they may stand; in a seventh of the images with figures past their bounds."""
        words, n, wild = pool.words, pool.words[pool.n], self.r.random() < .15
        seats = range(self.p) if self.p <= 16 else [0, self.p - 1, *self.r.sample(range(self.p), 8)]
        for j, epoch in enumerate(self.ring_epochs(min(n, self.e), words[0])):
            at = pool.event(n - 1 - j)
            words[at:at + 2] = [epoch, self.figure(wild, self.y())]
            for share in (at + 9 + 3 * seat for seat in seats):
                words[share:share + 3] = [self.figure(wild, self.ratio()) for _ in range(3)]

    def made_up(self):
        words = super().made_up()
        pool = model.Pool(self.p, self.e, words)
        self.fill_ring(pool)
        for seat in range(self.p):
            at = pool.stake_accounts + 4 * seat
            words[at:at + 4] = model.words_of(self.r.choice(self.accounts))
        return words

    # What a level is made of.

    def fresh(self):
        """At times with its seats filled, so that there is something to pay sooner."""
        super().fresh()
        if self.r.random() < .7:
            self.call("advance", self.plain())

    def step(self):
        super().step()
        self.payments(self.r.randrange(4), .1)

    def paid_list(self):
        self.journal.put(self.made_up())
        self.payments(self.r.randrange(3, 9), .6)

    def other_image(self):
        self.kept = self.payment()
        super().other_image()

    def other_sizes(self):
        self.kept = self.payment()
        super().other_sizes()

    def all_calls(self, a):
        self.pay(self.damaged_payment(self.kept) if self.r.random() < .3 else self.kept)
        super().all_calls(a)

    def one_seat(self, n, y, ratio, fee, last=None):
        """A pool with one key in it, its n newest events in order and alike; answers the key and the pool."""
        pool = model.Pool(self.p, self.e, [0] * model.length(self.p, self.e))
        words, seat, key = pool.words, self.r.randrange(self.p), self.r.choice(self.keys)
        last = self.r.randrange(60, 3_000) if last is None else last
        words[0], words[1], words[pool.n] = last, WHOLE, n
        words[2 + 4 * seat:6 + 4 * seat] = model.words_of(key)
        at = pool.stake_accounts + 4 * seat
        words[at:at + 4] = model.words_of(self.r.choice(self.accounts))
        for j in range(min(n, self.e)):
            at = pool.event(n - 1 - j)
            words[at:at + 2] = [last - 1 - j, y]
            words[at + 9 + 3 * seat:at + 12 + 3 * seat] = [ratio, ratio, fee]
        return key, pool

    def cut(self, whole, count):
        """A number as so many numbers of a word that add up to it."""
        found = []
        for left in range(count - 1, 0, -1):
            low, high = max(0, whole - left * WHOLE), min(whole, WHOLE)
            found.append(self.r.choice([self.r.randint(low, high), low, high]))
            whole -= found[-1]
        return [min(a, WHOLE) for a in found + [whole]]

    def in_any_order(self, positions):
        self.r.shuffle(positions)
        return [w for p in positions for w in p]

    def paid_at_the_edge(self, pool, positions):
        self.journal.put(pool.words)
        p = self.payment(self.in_any_order(positions))._replace(record_epoch=self.r.choice([0, 0, pool.words[0] - 1]))
        if self.r.random() < .3:
            self.tuned(p)
        self.pay(p)

    def slot_at_the_edge(self):
        """Amounts in one event that add up to around 2^64, and as much again in another."""
        key, pool = self.one_seat(self.r.randrange(1, 2 * self.e + 1), self.y(), self.r.choice([M, 100, self.r.randrange(M)]), self.r.choice([0, M]))
        newest = pool.words[0] - 1
        positions = []
        for only in self.r.choice([[newest], [newest, newest - 1]]):
            amounts = self.cut(WORD - self.r.choice([2, 1, 1, 0, -1]), self.r.randrange(1, 6))
            start = only + 1 if only < newest and self.unlocking < HALF else None
            positions += [position(key, amount, only, start) for amount in amounts]
        self.paid_at_the_edge(pool, positions)

    def parts_at_the_edge(self):
        """Both parts of several events, together around 2^64: at a rate of M an amount earns itself."""
        events = self.r.randrange(1, min(self.e, 6) + 1)
        key, pool = self.one_seat(events, M, M, self.r.choice([0, M, 1, self.r.randrange(M + 1)]))
        whole = WORD - self.r.choice([2, 1, 1, 0, -1])
        each = whole // events
        rest = position(key, whole - each * events, pool.words[0] - 1)
        self.paid_at_the_edge(pool, [position(key, a) for a in self.cut(each, self.r.randrange(1, 4))] + [rest])

    def event_at_the_edge(self):
        """One event: a rate, a total or a publisher's part around the edge of what fits."""
        kind = self.r.randrange(3)
        fee = self.r.choice([0, 1, M, self.r.randrange(M + 1)])
        if kind == 0:
            (y, ratio), amount = self.r.choice(RATES), self.r.choice([0, 1, 1, 2, 999_999, M, M + 1])
        elif kind == 1:
            y, ratio = self.r.choice([(2 * M, M), (M, M), (M, M + 1), (10_000 * M, M), (M, 3 * M)])
            amount = min(WHOLE, max(0, WORD * M // (y * ratio // M) + self.r.randrange(-2, 3)))
        else:
            y, ratio = self.r.choice([(M, M), (10_000, M)])
            amount = self.r.choice([1, M - 1, M, M + 1, 100 * (M - 1), 100 * M, 2 * M, self.r.randrange(10**9)])
            fee = self.r.choice([M - 1, M, M + 1, M + 1, 2 * M, 3 * M, WHOLE])
        key, pool = self.one_seat(1, y, ratio, fee)
        self.paid_at_the_edge(pool, [position(key, amount)])

    def start_at_the_edge(self):
        """A start whose end is around 2^64: looked at or not, by activation, record and an older event in front."""
        key, pool = self.one_seat(self.r.randrange(1, 2 * self.e + 1), 10_000, M, 0, self.r.choice([None, WHOLE]))
        last = pool.words[0]
        if self.r.random() < .3:
            pool.words[pool.event(pool.words[pool.n] - 1 - self.r.randrange(self.e))] = 3
        self.journal.put(pool.words)
        for _ in range(self.r.randrange(1, 5)):
            start = min(max(0, WORD - self.unlocking - self.r.randrange(3)), WHOLE)
            activation = last - self.r.choice([0, 0, 0, 1, 2, self.r.randrange(9)])
            positions = [position(key, self.r.choice([0, 5_000]), activation, start), position(key, self.r.randrange(10**6))]
            p = self.payment(self.in_any_order(positions))
            self.pay(p._replace(record_epoch=last - self.r.choice([0, 1, 2, 50, 50])))
