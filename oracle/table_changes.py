"""The table's groups with the changes of item 9."""
import cases_changes
import generate
import stakers
from by_hand import A, ACCOUNT, B, C, D, STAKE, WEEK, add, create, fee, payment, remove, row, say_cases, slash, stake, stake_account
from model import HALF, M, WORD, ZERO_KEY


def changes_by_hand(t):
    """Changes: each sentence of document 01's item 9, and each refusal at its edge and in its order."""
    say_cases(t, cases_changes.CHANGES)


def advance(t, now, caps, custody=WORD - 1):
    t.say(f"advance {now} 10000 {custody} 1 {generate.message(now * WEEK, [row(*both) for both in caps]).hex()}")
    t.say("nonzero")


def changes_on_a_list(t):
    """From a fresh pool: stake comes and goes, epochs pass, all are paid, two are slashed, fees and stake accounts change."""
    caps = [(A, 90_000_000), (B, WORD - 1)]
    t.say("fresh 10")
    t.say(add(5))
    advance(t, 10, caps)
    for line in (stake_account(STAKE), fee(200_000), add(60_000_000, account=STAKE), add(80_000_000), add(7_000_000, publisher=B), add(9, publisher=C)):
        t.say(line)
    t.say("nonzero")
    advance(t, 11, caps)
    # the publisher's position, and ACCOUNT's with both publishers
    own, both = stake(60_000_000, 11), [stake(80_000_000, 11), stake(7_000_000, 11, key=B)]
    for line in (remove(7_000_000, "LOCKED", 11, B), remove(1, "PREUNLOCKING", 11, B), add(30_000_000, 11), remove(30_000_000, "LOCKING", 11), create(0, 11)):
        t.say(line)
    both[1] = stake(7_000_000, 11, 12, key=B)
    advance(t, 12, caps, 1_000_000)
    t.say(slash(4_000_000, 0, 12, 11, 0, epoch=11))
    for words, publisher, account, other in ((own, A, STAKE, STAKE), (both[0], A, ACCOUNT, STAKE), (both[1], B, ACCOUNT, None)):
        t.say(payment(words, now=12, publisher=publisher, account=account, epoch=10, index=0, other=other))
    for line in (slash(4_000_000, 0, 12, 11, 0), slash(4_000_000, 0, 12, 12, 1), create(1, 12), slash(4_000_000, 1_000_000, 12, 12, 1),
                 slash(6_000_000, 0, 12, 12, 1, account=STAKE),
                 remove(7_000_000, "UNLOCKING", 12, B), remove(7_000_000, "UNLOCKED", 12, B), fee(0), stake_account(None, old=STAKE, owner=D, old_words=own, signer=D)):
        t.say(line)
        t.say("nonzero")
    advance(t, 14, caps, 2_000_000)
    t.say(payment(stake(54_000_000, 11), now=14, account=STAKE, epoch=12, index=1))
    t.say(payment(stake(75_000_000, 11), now=14, epoch=12, index=2))
    t.say(remove(54_000_000, "LOCKED", 14, account=STAKE))
    advance(t, 16, caps, 3_000_000)
    for line in (payment(stake(54_000_000, 11, 15), now=16, account=STAKE, epoch=14), remove(54_000_000, "UNLOCKED", 16, account=STAKE),
                 stake_account(D, old=STAKE, owner=D, signer=D), stake_account(None, old=D, owner=C, signer=C), stake_account(None, signer=A), fee(M)):
        t.say(line)
        t.say("nonzero")
    advance(t, 17, caps[1:])


def stakers_list(t):
    """A list of demand 3, at random."""
    stakers.Stakers(t, "table", 2, 4, WEEK, 1).staking_list(3)


def at_full_size(t, keys, now):
    """Changes of the first seat, of one in the middle and of the last, of keys that have none; all fees."""
    for n, k in enumerate((keys[0], keys[402], keys[1_023], keys[1_123], ZERO_KEY)):
        own = bytes([200 + n]) * 32
        for line in (add(5 + n, now, k), add(HALF, now, k), stake_account(own, signer=k, publisher=k), add(9, now, k, own), remove(2, "LOCKING", now, k, own),
                     remove(2, "UNLOCKING", now, k), create(0, now + n, k), create(0, now, k), slash(0, 0, now, publisher=k), slash(1, WORD - 1, now, publisher=k),
                     slash(1, 1, now, now - 1, publisher=k), stake_account(None, old=own, owner=C, old_words=[0] * 9 * 255 + stake(1, key=k), signer=C, publisher=k),
                     stake_account(None, old=own, owner=C, old_words=[0] * 9 * 256, signer=C, publisher=k)):
            t.say(line)
    t.say(fee(M + 1))
    t.say(fee(9))
    t.say("nonzero")
