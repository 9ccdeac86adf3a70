"""Document 01's calls on whole numbers, and the journal's lines around them: fresh, advance, forecast, payment and a position's state; the
changes of item 9 are operations.py's, the image is image.py's, a reward's split among clients is split.py's.

Written from the words of document 01 and of document 02's requests [1], [8] and [9]. It answers where the Rust can't be asked (checks 1 to 5, very many
passed epochs), and is compared with the Rust wherever that can be asked. Where docs/DIFFERENCES.md lists
that the Rust answers otherwise, it has both answers, the documents' and the Rust's.
"""
import copy
from typing import NamedTuple, Optional

import operations
import show
import split
from image import (HALF, IMAGE_ROOM, M, MOST_POSITIONS, WEIGHTS_ROOM, WORD, ZERO_KEY, Pool, Refused, in_range, length, message_of, numbers_of,
                   positions_of, refuse, words_of)

MOST_Y = 10_000
# Where the Rust answers otherwise. At the first two it goes on where document 01 refuses with 13; custody is drained where claimable is above it.
COUNT, RATE, DRAINED = LISTED = ["n reaches 2^63", "a rate past 64 bits", "a drained custody"]


class Caps(NamedTuple):
    time: int       # from 2^63 on it is negative
    rows: dict      # from key to cap, in row order


def caps_of(message):
    """Refusal 3."""
    refuse(3, not 11 <= len(message) <= 40_971)
    count = int.from_bytes(message[9:11], "big")
    refuse(3, count > 1_024 or len(message) < 11 + 40 * count)
    rows = [message[at:at + 40] for at in range(11, 11 + 40 * count, 40)]
    keys = [ZERO_KEY] + [row[:32] for row in rows]
    refuse(3, any(a >= b for a, b in zip(keys, keys[1:])))
    caps = {row[:32]: int.from_bytes(row[32:], "big") for row in rows}
    return Caps(int.from_bytes(message[1:9], "big"), caps)


class Advance(NamedTuple):
    now: int
    y: int
    custody: int
    verified: int
    message: bytes
    seconds: int


def passed_epochs(pool, a, caps):
    """Refusals 7, 8, 13 for a negative time, 9."""
    last = pool.words[0]
    refuse(7, a.verified != 1)
    refuse(8, a.now <= last)
    refuse(13, caps.time >= HALF)
    refuse(9, caps.time // a.seconds != a.now)
    return a.now - last


def rolled(total, change):
    """One side's total in the next epoch."""
    total_after = total + (change if change < HALF else change - WORD)
    refuse(13, total >= HALF or not 0 <= total_after < HALF)
    return total_after


def eligible(cap, own, other):
    """Item 3: self and other eligible, and their ratios."""
    of_own = min(cap, own)
    of_other = min(cap - of_own, other)
    ratio = [M * part // total if total else 0 for part, total in ((of_own, own), (of_other, other))]
    return of_own + of_other, ratio


class Seats(NamedTuple):
    """What becomes of the occupied seats, one after the other."""
    first: list     # self ratio, other ratio, fee in the first passed epoch
    later: list     # the same in those behind it
    own: list       # rolled totals
    other: list
    sums: tuple     # eligible in the first passed epoch, in a later one


def seats_of(pool, keys, rows):
    first, later, owns, others = [], [], [], []
    first_sum = later_sum = 0
    for seat, key in enumerate(keys):
        cap = rows.get(key, 0)
        fee = pool.words[pool.fees + seat]
        other, other_change = pool.words[pool.other + 2 * seat:pool.other + 2 * seat + 2]
        own, own_change = pool.words[pool.own + 2 * seat:pool.own + 2 * seat + 2]
        amount, ratios = eligible(cap, own, other)
        first += ratios + [fee]
        first_sum += amount
        owns.append(rolled(own, own_change))
        others.append(rolled(other, other_change))
        amount, ratios = eligible(cap, owns[-1], others[-1])
        later += ratios + [fee]
        later_sum += amount
    return Seats(first, later, owns, others, (first_sum, later_sum))


def adjusted(t, y, claimable, custody):
    """Item 5: y' and what is set aside; [8] where claimable is above custody."""
    r = t * y // M
    refuse(13, r + claimable >= WORD)
    if claimable > custody:
        return 0, 0
    if r + claimable <= custody:
        return y, r
    y = y * (custody - claimable) // r
    return y, t * y // M


def write_events(pool, new, seats, passed, y):
    """Each passed epoch's event; those that a later one writes over are left out."""
    last, n = pool.words[0], pool.words[pool.n]
    for k in range(max(0, passed - pool.e), passed):
        at = pool.event(n + k)
        new[at:at + 2] = [last + k, y]
        shares = seats.later if k else seats.first
        new[at + 9:at + 9 + len(shares)] = shares


def write_seats(pool, new, seats, seated):
    """Rolled sides, and the new keys behind the occupied seats."""
    for seat, (own, other) in enumerate(zip(seats.own, seats.other)):
        new[pool.own + 2 * seat:pool.own + 2 * seat + 2] = [own, 0]
        new[pool.other + 2 * seat:pool.other + 2 * seat + 2] = [other, 0]
    for seat, key in enumerate(seated, len(seats.own)):
        new[2 + 4 * seat:6 + 4 * seat] = words_of(key)


def state(position, epoch, unlocking):
    """Item 6."""
    if epoch < position.activation:
        return "LOCKING"
    if position.flag == 0:
        return "LOCKED"
    end = position.start + unlocking
    refuse(13, end >= WORD)
    if epoch < position.start:
        return "PREUNLOCKING"
    return "UNLOCKING" if epoch < end else "UNLOCKED"


def walked(pool, epoch):
    """Item 8: the places of the newest events that are not older than this epoch, and how many events are read, the one too old included."""
    n, found = pool.words[pool.n], []
    for back in range(1, min(n, pool.e) + 1):
        at = pool.event(n - back)
        if pool.words[at] < epoch:
            return found, back
        found.append(at)
    return found, len(found)


def gathered(pool, places, positions, unlocking):
    """What these positions add to each of the events."""
    amounts = dict.fromkeys(places, 0)
    for position in positions:
        for at in places:
            if state(position, pool.words[at], unlocking) in ("LOCKED", "PREUNLOCKING"):
                amounts[at] += position.amount
    refuse(13, any(amount >= WORD for amount in amounts.values()))
    return amounts


def parts(amount, rate, fee, own):
    """Item 7, of an amount above 0 at a rate: the delegator's part and the publisher's."""
    total = amount * rate // M
    refuse(13, total >= WORD)
    if own:
        return total, 0
    publisher = total * fee // M
    refuse(13, publisher > total)
    return total - publisher, publisher


class Payment(NamedTuple):
    now: int
    publisher: bytes
    account: bytes
    record_epoch: int
    next_index: int
    publisher_account: Optional[bytes]
    custody_flag: int       # 0 is absent
    positions: list         # words
    unlocking: int


def payment_of(fields, unlocking):
    now, publisher, account, epoch, index, publisher_account, flag, positions = fields
    other = None if publisher_account == "none" else bytes.fromhex(publisher_account)
    keys = bytes.fromhex(publisher), bytes.fromhex(account)
    return Payment(int(now), *keys, int(epoch), int(index), other, int(flag), numbers_of(positions), unlocking)


class Site:
    """P, E, the settings and the image, as the journal's lines leave them."""

    def __init__(self):
        self.p = self.e = 0
        self.seconds, self.unlocking = 604_800, 1
        self.words = []
        self.passed = 0             # by the last call, where it got as far as stepping over them
        self.listed = None          # one of LISTED, if the last call's answer is there
        self.rust = None            # the Rust's answer to that call
        self.as_the_rust = False

    def pool(self):
        return Pool(self.p, self.e, self.words)

    def departs(self, place, condition):
        """Whether the answer is another than the Rust's in this place; never where the Rust's own is asked for."""
        if not condition or self.as_the_rust:
            return False
        self.listed = place
        return True

    def new(self, p, e):
        self.p, self.e = p, e
        self.words = [0] * length(p, e) if in_range(p, e) else []
        return [len(self.words)]

    def settings(self, seconds, unlocking):
        self.seconds, self.unlocking = seconds, unlocking
        return []

    def fresh(self, epoch):
        pool = self.pool()
        refuse(2, epoch == 0)
        self.words = [epoch - 1] + [0] * (len(pool.words) - 1)
        return []

    def begin(self, a):
        """Refusals 1, 2, 3, 5, then those of `passed_epochs`; the pool, its rows and its seats."""
        pool = self.pool().checked()
        refuse(2, a.seconds == 0)
        caps = caps_of(a.message)
        refuse(5, a.y > MOST_Y)
        self.passed = passed_epochs(pool, a, caps)
        keys = pool.seats()
        return pool, keys, caps.rows, seats_of(pool, keys, caps.rows)

    def settled(self, pool, t, a):
        """Other 13; then the Rust alone has 14, where claimable is above custody."""
        refuse(13, t >= WORD)
        refuse(13, self.departs(COUNT, pool.words[pool.n] + self.passed >= HALF))
        settled = adjusted(t, a.y, pool.words[1], a.custody)
        drained = pool.words[1] > a.custody
        self.departs(DRAINED, drained)
        refuse(14, drained and self.as_the_rust)
        return settled

    def worked_out(self, a):
        """The pool, its seats, the keys that take one, and the answer's values."""
        pool, keys, rows, seats = self.begin(a)
        first, later = seats.sums
        y, aside = self.settled(pool, first + later * (self.passed - 1), a)
        matched = rows.keys() & set(keys)
        left = [key for key in rows if key not in matched]
        seated = left[:pool.p - len(keys)]
        answer = [y, aside, len(matched), len(seated), len(left) - len(seated)]
        return pool, seats, seated, answer

    def advance(self, a):
        pool, seats, seated, answer = self.worked_out(a)
        new = list(pool.words)
        write_events(pool, new, seats, self.passed, answer[0])
        write_seats(pool, new, seats, seated)
        new[0] = a.now
        new[1] += answer[1]
        new[pool.n] += self.passed
        self.words = new
        return answer

    def forecast(self, a):
        """Every passed epoch at the rolled totals; no word is written."""
        pool, _, _, seats = self.begin(a)
        return self.settled(pool, seats.sums[1] * self.passed, a)[1:]

    def reward(self, pool, seat, amounts, own):
        """Item 7 for each event with an amount, added up: the delegator's part and the publisher's."""
        delegator = publisher = 0
        for at, amount in amounts.items():
            if amount == 0:
                continue
            share = at + 9 + 3 * seat       # self ratio, other ratio, fee
            rate = pool.words[at + 1] * pool.words[share if own else share + 1] // M
            refuse(13, self.departs(RATE, rate >= WORD))
            of_delegator, of_publisher = parts(amount, rate, pool.words[share + 2], own)
            delegator += of_delegator
            publisher += of_publisher
        refuse(13, delegator + publisher >= WORD)
        return delegator, publisher

    def earned(self, p):
        """Refusals 1, 4, 10, 11, 12, 13; the pool, the seat's stake account, both parts and the read count."""
        pool = self.pool().checked()
        positions = positions_of(p.positions)
        seat = pool.seat_of(p.publisher)
        refuse(12, pool.words[0] != p.now)
        matching = [q for q in positions if q.kind == 2 and q.key == p.publisher]
        places, reads = walked(pool, p.record_epoch)
        amounts = gathered(pool, places, matching, p.unlocking)
        stake_account = pool.stake_account(seat)
        both = self.reward(pool, seat, amounts, p.account == stake_account)
        return pool, stake_account, both, reads * len(matching)

    def payment(self, p):
        """Item 8: those of `earned`, then 16, 17, 18. The last value is custody's fall."""
        pool, stake_account, both, reads = self.earned(p)
        refuse(16, sum(both) > pool.words[1])
        refuse(17, stake_account != (ZERO_KEY if p.publisher_account is None else p.publisher_account))
        refuse(18, p.publisher_account is not None and p.custody_flag == 0)
        self.words = [p.now, pool.words[1] - sum(both)] + pool.words[2:]
        return [*both, p.now, p.next_index, reads, both[0] if p.publisher_account is None else sum(both)]

    def state(self, epoch, words):
        """Item 6 of one position, and of no pool: refusals 4, for an empty one too, and 13."""
        refuse(4, len(words) != 9)
        position = positions_of(words)[0]
        refuse(4, position.kind == 0)
        return [state(position, epoch, self.unlocking)]

    def change(self, name, x):
        """One of item 9's changes."""
        self.words, answer = operations.asked(self.pool().checked(), name, x)
        return answer

    def image(self, words):
        self.words = words
        return [len(words)]

    def load(self, content):
        """A file's bytes, as far as an image is kept; 1 where they end within a word."""
        content = content[:8 * IMAGE_ROOM]
        refuse(1, len(content) % 8)
        return self.image([int.from_bytes(content[at:at + 8], "little") for at in range(0, len(content), 8)])

    def saved(self):
        """The bytes of the image's file; 1 where the calls on it would be refused so."""
        return b"".join(word.to_bytes(8, "little") for word in self.pool().checked().words)

    def values(self, name, fields):
        if name in ("advance", "forecast"):
            return getattr(self, name)(Advance(*map(int, fields[:4]), message_of(fields[4]), self.seconds))
        if name == "payment":
            return self.payment(payment_of(fields, self.unlocking))
        if name == "state":
            return self.state(int(fields[0]), numbers_of(fields[1]))
        if name == "split":
            return split.parts(int(fields[0]), numbers_of(fields[1], WEIGHTS_ROOM))
        if name in operations.NAMES:
            return self.change(name, operations.given(name, fields))
        if name == "nonzero":
            return [f"{i}:{w}" for i, w in enumerate(self.words) if w]
        if name == "show":
            return [show.answer(self.pool().checked())]
        if name == "image" and fields:
            return self.image(numbers_of(fields[0], IMAGE_ROOM))
        if name == "image":
            return self.words
        if name in ("new", "settings", "fresh"):
            return getattr(self, name)(*map(int, fields))
        raise ValueError(f"the model has no call {name}")

    def answer(self, line):
        """The answer to a line of the journal's forms."""
        self.passed, self.listed, self.rust = 0, None, None
        before = copy.copy(self)
        answer = self.told(*line.split())
        if self.listed:
            before.as_the_rust = True
            self.rust = before.told(*line.split())
        return answer

    def told(self, name, *fields):
        try:
            return " ".join(["ok", *map(str, self.values(name, fields))])
        except Refused as r:
            return f"refused {r.args[0]}"
