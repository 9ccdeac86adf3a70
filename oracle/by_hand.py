"""Images, advances, payments and changes written by hand, for the cases and for the table."""
import generate
import model
import operations
import payments
from model import M, Advance, Payment
from operations import Accounts, Change, Creation, Slash

A, B, C, D, STAKE, ACCOUNT = (bytes([n]).ljust(32, b"\0") for n in (1, 2, 3, 4, 7, 9))
SHARE = (M, 500_000, 200_000)       # self ratio, other ratio, fee
WEEK = 604_800


def last_byte(key):
    """A key that differs in the last byte alone."""
    return key[:31] + bytes([key[31] ^ 1])


def row(key, cap=model.WORD - 1):
    """A caps message's row."""
    return key + cap.to_bytes(8, "big")


def pool(epochs=(9, 8, 7, 6), p=1, e=4, n=None, last=10, claimable=M, keys=(A,), stakes=(STAKE,), y=10_000, shares=(SHARE,), unread=0):
    """The words of an image by its newest events, newest first; an epoch may come with its own y and shares. Slots never written hold `unread`."""
    found = model.Pool(p, e, [0] * model.length(p, e))
    words = found.words
    words[found.events:found.n] = [unread] * (found.n - found.events)
    words[0], words[1], words[found.n] = last, claimable, len(epochs) if n is None else n
    for at, listed in ((2, keys), (found.stake_accounts, stakes)):
        words[at:at + 4 * len(listed)] = [w for key in listed for w in model.words_of(key)]
    for j, event in enumerate(epochs):
        epoch, its_y, its_shares = event if isinstance(event, tuple) else (event, y, shares)
        at = found.event(words[found.n] - 1 - j)
        figures = [figure for share in its_shares for figure in share]
        words[at:at + 9 + len(figures)] = [epoch, its_y] + [0] * 7 + figures
    return words


def stake(amount, activation=0, start=None, kind=2, key=A):
    """A position's nine words."""
    return payments.position(key, amount, activation, start, kind)


def payment(*positions, now=10, publisher=A, account=ACCOUNT, epoch=0, index=3, other=STAKE, flag=1, words=None):
    """A payment's line; its positions as one list of words where they are no positions."""
    words = [w for nine in positions for w in nine] if words is None else words
    return payments.line(Payment(now, publisher, account, epoch, index, other, flag, words, 0))


def advance(now, custody, rows=(), y=10_000, verified=1, name="advance"):
    """The line of an advance or a forecast; the time is the epoch's first second."""
    return generate.line(name, Advance(now, y, custody, verified, generate.message(now * WEEK, list(rows)), WEEK))


# Changes.

def seats(keys=(A,), stakes=(STAKE,), own=(), other=(), slashes=(), fees=(), last=10, n=0, p=2, e=1, claimable=0, epochs=()):
    """The words of an image by its seats: sides as (total, change); its newest events as `pool` has them."""
    words = pool(epochs, p, e, n, last, claimable, keys, stakes)
    found = model.Pool(p, e, words)
    for at, sides in ((found.own, own), (found.other, other)):
        words[at:at + 2 * len(sides)] = [x % model.WORD for side in sides for x in side]
    for at, listed in ((found.slashes, slashes), (found.fees, fees)):
        words[at:at + len(listed)] = listed
    return words


def say_cases(t, cases):
    """The lines of cases in a journal; they leave settings of their own, so a week and 1 come back behind them."""
    for case in cases:
        t.comment(case.says)
        for line in case.journal.splitlines():
            t.say(line)
    t.say(f"settings {WEEK} 1")


def add(amount, now=10, publisher=A, account=ACCOUNT):
    return operations.line("add", Change(now, publisher, account, amount))


def remove(amount, state="LOCKED", now=10, publisher=A, account=ACCOUNT):
    return operations.line("remove", Change(now, publisher, account, amount, state))


def create(index, now=10, publisher=A):
    return operations.line("create-slash-event", Creation(now, publisher, index))


def slash(locked=0, preunlocking=0, now=10, event=None, index=0, next_index=None, epoch=None, publisher=A, account=ACCOUNT):
    """Unless given: the event's epoch and the record's are the current one, the record's next index is the index."""
    epoch, event, next_index = now if epoch is None else epoch, now if event is None else event, index if next_index is None else next_index
    return operations.line("slash", Slash(now, publisher, account, epoch, next_index, index, event, locked, preunlocking))


def fee(its):
    return operations.line("fee", its)


def stake_account(new=ACCOUNT, new_words=(), old=None, owner=None, old_words=(), signer=A, authority=B, publisher=A):
    return operations.line("stake-account", Accounts(publisher, signer, authority, old, owner, list(old_words), new, list(new_words)))
