"""Document 01's image, keys, positions and refusals, as the model reads them."""
from typing import NamedTuple

M = 1_000_000
WORD = 2**64
HALF = 2**63
MOST_POSITIONS = 256
# What is kept of a long field, one more than the library accepts: a message's bytes, the words of positions, of an image and of weights.
MESSAGE_ROOM, POSITIONS_ROOM, IMAGE_ROOM, WEIGHTS_ROOM = 40_972, 9 * (MOST_POSITIONS + 1), 174_552, 65
ZERO_KEY = bytes(32)


class Refused(Exception):
    """Its one argument is document 01's number."""


def refuse(number, condition):
    if condition:
        raise Refused(number)


def in_range(p, e):
    return 1 <= p <= 1_024 and 1 <= e <= 52


def length(p, e):
    return 3 + 14 * p + e * (9 + 3 * p)


def words_of(key):
    """A key's four words."""
    return [int.from_bytes(key[i:i + 8], "little") for i in range(0, 32, 8)]


class Pool:
    """An image and where its words stand. Refusal 1 where there is none; n is looked at in `checked`."""

    def __init__(self, p, e, words):
        refuse(1, not in_range(p, e) or len(words) != length(p, e))
        self.p, self.e, self.words = p, e, words
        self.other = 2 + 4 * p          # P sides: total, signed change
        self.own = self.other + 2 * p
        self.stake_accounts = self.own + 2 * p
        self.events = self.stake_accounts + 4 * p
        self.n = self.events + e * (9 + 3 * p)
        self.slashes = self.n + 1
        self.fees = self.slashes + p

    def checked(self):
        refuse(1, self.words[self.n] >= HALF)
        return self

    def event(self, index):
        return self.events + index % self.e * (9 + 3 * self.p)

    def key_at(self, at):
        return b"".join(w.to_bytes(8, "little") for w in self.words[at:at + 4])

    def key(self, seat):
        return self.key_at(2 + 4 * seat)

    def stake_account(self, seat):
        return self.key_at(self.stake_accounts + 4 * seat)

    def seats(self):
        """The keys up to the first zero key."""
        keys = []
        while len(keys) < self.p and (key := self.key(len(keys))) != ZERO_KEY:
            keys.append(key)
        return keys

    def seat_of(self, publisher):
        """Refusals 10 and 11; over all seats, first match."""
        refuse(10, publisher == ZERO_KEY)
        wanted = words_of(publisher)
        for seat in range(self.p):
            if self.words[2 + 4 * seat:6 + 4 * seat] == wanted:
                return seat
        raise Refused(11)


class Position(NamedTuple):
    kind: int           # 0 empty, 1 voting, 2 pool
    amount: int
    activation: int
    flag: int
    start: int
    key: bytes


def positions_of(words):
    """Refusal 4. Of an empty position only the kind is read."""
    refuse(4, len(words) % 9 or len(words) > 9 * MOST_POSITIONS)
    nines = [words[at:at + 9] for at in range(0, len(words), 9)]
    refuse(4, any(w[0] > 2 or (w[0] and w[3] > 1) for w in nines))
    return [Position(*w[:5], b"".join(x.to_bytes(8, "little") for x in w[5:])) for w in nines]


def message_of(field):
    """A message of the journal, as far as it is kept."""
    return b"" if field == "-" else bytes.fromhex(field[:2 * MESSAGE_ROOM])


def numbers_of(field, room=POSITIONS_ROOM):
    """A word list of the journal, as far as it is kept; a key is its four words."""
    if field == "-":
        return []
    items = field.split(",", room)[:room]
    if "0x" not in field:
        return list(map(int, items))
    words = []
    for item in items:
        if len(words) >= room:
            break
        words += words_of(bytes.fromhex(item[2:])) if item.startswith("0x") else [int(item)]
    return words[:room]
