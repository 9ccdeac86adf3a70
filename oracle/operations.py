"""Document 01's item 9 on whole numbers: add, remove, create slash event, slash, fee, stake account. Each takes a pool whose image has been
looked at and what the journal's line gives, and answers the image's words afterwards and its values."""
from typing import NamedTuple, Optional

from image import HALF, M, WORD, ZERO_KEY, numbers_of, positions_of, refuse, words_of

STATES = ["LOCKING", "LOCKED", "PREUNLOCKING", "UNLOCKING", "UNLOCKED"]
NAMES = ["add", "remove", "create-slash-event", "slash", "fee", "stake-account"]


class Change(NamedTuple):
    now: int
    publisher: bytes
    account: bytes
    amount: int
    state: Optional[str] = None     # of a removal


class Creation(NamedTuple):
    now: int
    publisher: bytes
    index: int


class Slash(NamedTuple):
    now: int
    publisher: bytes
    account: bytes
    record_epoch: int
    next_index: int
    index: int
    event_epoch: int
    locked: int
    preunlocking: int


class Accounts(NamedTuple):
    publisher: bytes
    signer: bytes
    authority: bytes
    old: Optional[bytes]
    old_owner: Optional[bytes]
    old_positions: list     # words
    new: Optional[bytes]
    new_positions: list     # words


# Sides.

def side_at(pool, seat, account):
    """Where the side stands that the account's stake is on: its total, then its change."""
    return (pool.own if account == pool.stake_account(seat) else pool.other) + 2 * seat


def signed(word):
    return word if word < HALF else word - WORD


def amount_fits(amount):
    """13: what joins or leaves a signed change is itself at most 2^63 - 1."""
    refuse(13, amount >= HALF)


def changed(word, by):
    """A change's word afterwards; 13 outside -2^63 to 2^63 - 1."""
    change = signed(word) + by
    refuse(13, not -HALF <= change < HALF)
    return change % WORD


def with_words(pool, at, new):
    return pool.words[:at] + new + pool.words[at + len(new):]


# The calls.

def delegation_side(pool, c):
    """10, 11, 12, 13 for the amount; where the side stands."""
    seat = pool.seat_of(c.publisher)
    refuse(12, pool.words[0] != c.now)
    amount_fits(c.amount)
    return side_at(pool, seat, c.account)


def add(pool, c):
    at = delegation_side(pool, c)
    return with_words(pool, at + 1, [changed(pool.words[at + 1], c.amount)]), []


def remove(pool, c):
    """LOCKED and LOCKING subtract, UNLOCKED nothing; others are 15."""
    at = delegation_side(pool, c)
    refuse(15, c.state in ("PREUNLOCKING", "UNLOCKING"))
    if c.state == "UNLOCKED":
        return pool.words, []
    return with_words(pool, at + 1, [changed(pool.words[at + 1], -c.amount)]), []


def create_slash_event(pool, c):
    """10, 11, 21, 13; its epoch is the current one."""
    at = pool.slashes + pool.seat_of(c.publisher)
    refuse(21, pool.words[at] != c.index)
    refuse(13, c.index + 1 >= WORD)
    return with_words(pool, at, [c.index + 1]), [c.now]


def slash(pool, s):
    """19, 22, 20, 13 for the next index; 12, 10, 11, 13 only if it applies."""
    refuse(19, s.record_epoch != s.now)
    refuse(22, s.event_epoch > s.now)
    refuse(20, s.index < s.next_index or (s.event_epoch == s.now and s.index != s.next_index))
    refuse(13, s.index + 1 >= WORD)
    kept = [s.record_epoch, s.index + 1]
    if s.event_epoch < s.now:
        return pool.words, kept
    refuse(12, pool.words[0] != s.now)
    at = side_at(pool, pool.seat_of(s.publisher), s.account)
    total = pool.words[at] - s.locked - s.preunlocking
    refuse(13, total < 0)
    amount_fits(s.preunlocking)
    return with_words(pool, at, [total, changed(pool.words[at + 1], s.preunlocking)]), kept


def fee(pool, its):
    """6; all seats."""
    refuse(6, its > M)
    return with_words(pool, pool.fees, [its] * pool.p), []


def holds(positions, publisher):
    return any(q.kind == 2 and q.key == publisher for q in positions)


def stake_account(pool, a):
    """4 for the lists of accounts that are there, 10, 11; 23, or 26, 17, 24, 25; then 27."""
    old, new = ([] if key is None else positions_of(words) for key, words in ((a.old, a.old_positions), (a.new, a.new_positions)))
    seat = pool.seat_of(a.publisher)
    current = pool.stake_account(seat)
    if current == ZERO_KEY:
        refuse(23, a.signer not in (a.publisher, a.authority))
    else:
        refuse(26, a.old is None)
        refuse(17, a.old != current)
        refuse(24, holds(old, a.publisher))
        refuse(25, a.signer != a.old_owner)
    refuse(27, holds(new, a.publisher))
    return with_words(pool, pool.stake_accounts + 4 * seat, words_of(ZERO_KEY if a.new is None else a.new)), []


# The journal's lines.

def key_or_none(field):
    return None if field == "none" else bytes.fromhex(field)


def accounts_of(fields):
    *keys, old, owner, old_positions, new, new_positions = fields
    keys = map(bytes.fromhex, keys)
    return Accounts(*keys, key_or_none(old), key_or_none(owner), numbers_of(old_positions), key_or_none(new), numbers_of(new_positions))


def given(name, fields):
    """What a line gives: the fields that are keys, or name a state, stay no numbers."""
    if name == "stake-account":
        return accounts_of(fields)
    values = [bytes.fromhex(f) if len(f) == 64 else f if f in STATES else int(f) for f in fields]
    kind = {"add": Change, "remove": Change, "create-slash-event": Creation, "slash": Slash}.get(name)
    return kind(*values) if kind else values[0]


def line(name, x):
    """The line that gives it."""
    values = x if isinstance(x, tuple) else (x,)
    return " ".join([name, *(field(v) for v in values if v is not None or name == "stake-account")])


def field(value):
    if isinstance(value, list):
        return ",".join(map(str, value)) or "-"
    return "none" if value is None else value.hex() if isinstance(value, bytes) else str(value)


def asked(pool, name, x):
    """The words afterwards and the answer's values."""
    return globals()[name.replace("-", "_")](pool, x)
