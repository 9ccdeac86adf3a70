"""Cases with the answers written by hand, for the program, the Rust and the model: the changes, each sentence of document 01's item 9, and each
refusal at its edge and in its order. For the program alone: their wrong lines.

Unless a case says otherwise: P 2, E 1, last epoch and now 10, key A on the first seat with stake account STAKE, and all the rest zero. ACCOUNT is on
the other side.
"""
from by_hand import A, ACCOUNT, B, C, STAKE, add, create, fee, last_byte, remove, seats, slash, stake, stake_account
from cases import KEY, LARGE, NUMBER, Case, cut_or_longer, named, paying, with_field, wrong
from model import HALF, M, WORD, ZERO_KEY
from operations import STATES

WHOLE = WORD - 1
MOST = HALF - 1
ONE, ANOTHER = stake(1), stake(1, key=B)


def leaves(words):
    """The image that a call leaves."""
    return "nonzero", " ".join(["ok", *(f"{i}:{w}" for i, w in enumerate(words) if w)])


def changing(says, *steps, p=2, e=1):
    return paying(says, *steps, p=p, e=e)


def by_owner(new=ACCOUNT, signer=C, owner=C, old=STAKE, **others):
    """Of a seat that has a stake account."""
    return stake_account(new, old=old, owner=owner, signer=signer, **others)


SIDES = dict(own=[(70, 2)], other=[(10, -3)])
TWO = dict(keys=[A, ZERO_KEY, B, B], stakes=[STAKE, C, C, ACCOUNT], p=4)        # B is on the third seat
FULL = [1_000 + i for i in range(46)]       # every word is another
FULL[0], FULL[41], FULL[44] = 10, 7, 5
FULL[2:6], FULL[18:22] = [1, 0, 0, 0], [7, 0, 0, 0]


def full(**others):
    """The same with some words changed, by place."""
    return [others.get(f"_{i}", w) for i, w in enumerate(FULL)]


SENTENCES = [
    changing("add: the amount joins the change of the account's side",
             seats(**SIDES), (add(5), "ok"), leaves(seats(own=[(70, 2)], other=[(10, 2)])),
             (add(5, account=STAKE), "ok"), leaves(seats(own=[(70, 7)], other=[(10, 2)])),
             (add(0), "ok"), leaves(seats(own=[(70, 7)], other=[(10, 2)]))),
    changing("remove: LOCKED, LOCKING subtract; UNLOCKED nothing",
             seats(**SIDES), (remove(5), "ok"), leaves(seats(own=[(70, 2)], other=[(10, -8)])),
             (remove(5, "LOCKING", account=STAKE), "ok"), leaves(seats(own=[(70, -3)], other=[(10, -8)])),
             (remove(5, "UNLOCKED"), "ok"), (remove(MOST, "UNLOCKED", account=STAKE), "ok"), (remove(0), "ok"),
             leaves(seats(own=[(70, -3)], other=[(10, -8)])),
             (remove(11), "ok"), leaves(seats(own=[(70, -3)], other=[(10, -19)]))),
    changing("15 for the other states",
             seats(**SIDES), (remove(5, "UNLOCKING"), "refused 15"), (remove(5, "PREUNLOCKING"), "refused 15"), (remove(0, "UNLOCKING", account=STAKE), "refused 15"),
             leaves(seats(**SIDES))),
    changing("Self side: the account key equals the seat's stake account key, both zero included",
             seats(stakes=[]), (add(5, account=ZERO_KEY), "ok"), (add(3), "ok"), (add(1, account=STAKE), "ok"),
             leaves(seats(stakes=[], own=[(0, 5)], other=[(0, 4)])),
             seats(), (add(5, account=ZERO_KEY), "ok"), (add(3, account=last_byte(STAKE)), "ok"), (remove(1, account=STAKE), "ok"),
             leaves(seats(own=[(0, -1)], other=[(0, 8)])),
             seats(stakes=[], **SIDES), (slash(4, 2, account=ZERO_KEY), "ok 10 1"), leaves(seats(stakes=[], own=[(64, 4)], other=[(10, -3)]))),
    changing("A publisher is looked up over all P seats, first match",
             seats(**TWO, other=[(10, 0)] * 4), (add(5, publisher=B), "ok"), (remove(1, publisher=B, account=C), "ok"), (create(0, publisher=B), "ok 10"),
             (slash(4, 2, publisher=B), "ok 10 1"), (add(1, account=C), "ok"),
             leaves(seats(**TWO, other=[(10, 1), (10, 0), (4, 7), (10, 0)], own=[(0, 0)] * 2 + [(0, -1)], slashes=[0, 0, 1])),
             (by_owner(None, old=C, publisher=B), "ok"),
             leaves(seats(**TWO | dict(stakes=[STAKE, C, ZERO_KEY, ACCOUNT]), other=[(10, 1), (10, 0), (4, 7), (10, 0)], own=[(0, 0)] * 2 + [(0, -1)],
                          slashes=[0, 0, 1])), p=4),
    changing("create slash event counts the publisher's; its epoch is the current one, which is not compared with the pool's",
             seats(keys=[A, B], slashes=[0, 5]), (create(0), "ok 10"), (create(1, now=11), "ok 11"), (create(5, now=0, publisher=B), "ok 0"),
             (create(2, now=WHOLE), f"ok {WHOLE}"), leaves(seats(keys=[A, B], slashes=[3, 6])),
             (create(2), "refused 21"), (create(4), "refused 21"), leaves(seats(keys=[A, B], slashes=[3, 6]))),
    changing("A slash that applies: 4 locked, 2 preunlocking on total 10, change -3",
             seats(**SIDES), (slash(4, 2), "ok 10 1"), leaves(seats(own=[(70, 2)], other=[(4, -1)])),
             (slash(60, 10, account=STAKE, index=7), "ok 10 8"), leaves(seats(own=[(0, 12)], other=[(4, -1)])),
             (slash(0, 0, index=WHOLE - 1), f"ok 10 {WHOLE}"), leaves(seats(own=[(0, 12)], other=[(4, -1)]))),
    changing("A slash older than the current epoch only sets the record's next index: next 2, index 5, event 7",
             seats(**SIDES), (slash(4, 2, now=8, event=7, index=5, next_index=2), "ok 8 6"), (slash(4, 2, now=7, event=7, index=5, next_index=2), "refused 20"),
             (slash(WHOLE, WHOLE, now=11, event=10, index=5), "ok 11 6"), (slash(WHOLE, WHOLE, now=WHOLE, event=0, publisher=B), f"ok {WHOLE} 1"),
             (slash(now=10, event=9, publisher=ZERO_KEY, index=5, next_index=0), "ok 10 6"), leaves(seats(**SIDES)),
             (slash(now=10, event=9, index=WHOLE - 1, next_index=0), f"ok 10 {WHOLE}")),
    changing("20: an index below the next one or, in the current epoch, unequal to it",
             seats(**SIDES), (slash(index=1, next_index=2), "refused 20"), (slash(index=2, next_index=2), "ok 10 3"), (slash(index=3, next_index=2), "refused 20"),
             (slash(index=1, next_index=2, event=9), "refused 20"), (slash(index=2, next_index=2, event=9), "ok 10 3"),
             (slash(index=3, next_index=2, event=9), "ok 10 4"), (slash(index=0, next_index=WHOLE, event=9), "refused 20")),
    changing("fee: all seats", seats(fees=[5, 6]), (fee(0), "ok"), leaves(seats()), (fee(M), "ok"), leaves(seats(fees=[M, M])),
             (fee(M + 1), "refused 6"), (fee(WHOLE), "refused 6"), leaves(seats(fees=[M, M])),
             seats(keys=[]), (fee(1), "ok"), leaves(seats(keys=[], fees=[1, 1]))),
    changing("stake account, of a seat that has none: the publisher or the authority signs, the old account is not looked at",
             seats(stakes=[]), (stake_account(), "ok"), leaves(seats(stakes=[ACCOUNT])),
             seats(stakes=[]), (stake_account(signer=C, authority=C), "ok"), leaves(seats(stakes=[ACCOUNT])),
             seats(stakes=[]), (stake_account(STAKE, old=C, owner=B, old_words=ONE), "ok"), leaves(seats()),
             seats(stakes=[]), (stake_account(None), "ok"), (stake_account(ZERO_KEY), "ok"), leaves(seats(stakes=[])),
             (stake_account(signer=C), "refused 23"), (stake_account(signer=last_byte(A)), "refused 23"),
             (stake_account(signer=ZERO_KEY, authority=ZERO_KEY), "ok"), leaves(seats(stakes=[ACCOUNT]))),
    changing("stake account, of a seat that has one: its owner signs",
             seats(), (by_owner(), "ok"), leaves(seats(stakes=[ACCOUNT])),
             seats(), (by_owner(None), "ok"), leaves(seats(stakes=[])),
             seats(), (by_owner(ZERO_KEY), "ok"), leaves(seats(stakes=[])),
             seats(), (by_owner(STAKE), "ok"), leaves(seats()),
             (by_owner(owner=ZERO_KEY, signer=ZERO_KEY), "ok"), leaves(seats(stakes=[ACCOUNT])),
             seats(), (by_owner(signer=A), "refused 25"), (by_owner(signer=B), "refused 25"), (by_owner(signer=last_byte(C)), "refused 25"), leaves(seats())),
    changing("stake account: only a position in this publisher counts, whatever its amount and epochs",
             seats(), (by_owner(old_words=ONE), "refused 24"), (by_owner(old_words=ANOTHER + stake(0, WHOLE, WHOLE)), "refused 24"),
             (by_owner(new_words=ONE), "refused 27"), (by_owner(new_words=ANOTHER + stake(0, WHOLE, WHOLE)), "refused 27"), leaves(seats()),
             (by_owner(old_words=ANOTHER + stake(1, kind=1) + stake(1, kind=0) + stake(1, key=last_byte(A)),
                       new_words=ANOTHER + stake(1, kind=1) + stake(1, kind=0) + stake(1, key=last_byte(A))), "ok"), leaves(seats(stakes=[ACCOUNT])),
             seats(), (by_owner(old_words=[0] * 9 * 256, new_words=[0] * 9 * 255 + ANOTHER), "ok"),
             seats(), (by_owner(new_words=[0] * 9 * 255 + ONE), "refused 27"), (by_owner(old_words=[0] * 9 * 255 + ONE), "refused 24"),
             seats(keys=[B, A], stakes=[STAKE, ZERO_KEY]), (stake_account(new_words=ANOTHER), "ok"), leaves(seats(keys=[B, A], stakes=[STAKE, ACCOUNT]))),
    changing("no other word changes",
             FULL, (add(5), "ok"), leaves(full(_11=1_016)), FULL, (remove(5, account=STAKE), "ok"), leaves(full(_15=1_010)),
             FULL, (create(1_042), "ok 10"), leaves(full(_42=1_043)), FULL, (slash(4, 2), "ok 10 1"), leaves(full(_10=1_004, _11=1_013)),
             FULL, (slash(4, 2, account=STAKE), "ok 10 1"), leaves(full(_14=1_008, _15=1_017)), FULL, (fee(9), "ok"), leaves(full(_44=9, _45=9)),
             FULL, (by_owner(b"\1" * 32), "ok"), leaves(full(**{f"_{i}": int("01" * 8, 16) for i in range(18, 22)}))),
]

CALLS = [add(5), remove(5), create(0), slash(4, 2), fee(5), by_owner()]
FAULTY = [add(HALF, publisher=ZERO_KEY), remove(HALF, publisher=ZERO_KEY), create(7, publisher=ZERO_KEY), slash(4, 2, epoch=9), fee(M + 1), by_owner(new_words=[3])]


def each(lines, answer):
    return [(line, answer) for line in lines]


REFUSED = [
    changing("1: P, E, the image's length, n; ahead of all others",
             seats(**SIDES)[:-1], *each(CALLS + FAULTY, "refused 1"), seats(**SIDES) + [0], *each(CALLS + FAULTY, "refused 1"),
             seats(**SIDES, n=HALF), *each(CALLS + FAULTY, "refused 1"), leaves(seats(**SIDES, n=HALF)),
             seats(**SIDES, n=WHOLE), *each(CALLS, "refused 1"),
             seats(**SIDES, n=MOST), *zip(CALLS, ["ok", "ok", "ok 10", "ok 10 1", "ok", "ok"]),
             ("new 2 53", "ok 0"), *each(CALLS, "refused 1"), seats(), *each(CALLS, "refused 1"), ("new 0 1", "ok 0"), *each(CALLS, "refused 1"),
             ("new 1025 1", "ok 0"), *each(CALLS, "refused 1"), ("new 2 0", "ok 0"), *each(CALLS, "refused 1")),
    changing("4: the lists of accounts that are there, ahead of 10", seats(),
             *[(by_owner(**{which: words}, publisher=ZERO_KEY), "refused 4") for which in ("old_words", "new_words") for words in (
                 ONE[:-1], ONE + [0], [2], [0] * 9 * 257, [3] + ONE[1:], [WHOLE] + ONE[1:], ONE[:3] + [2] + ONE[4:], stake(1, kind=1)[:3] + [2] + ONE[4:])],
             (by_owner(old_words=[0] + [WHOLE] * 8, new_words=[0] + [WHOLE] * 8, signer=B), "refused 25"),
             (by_owner(None, old_words=[3]), "refused 4"), (stake_account(new_words=[3]), "refused 4"),
             seats(stakes=[]), (stake_account(old=C, owner=C, old_words=[3]), "refused 4"), (stake_account(None, signer=C, publisher=ZERO_KEY), "refused 10")),
    changing("10 and 11", seats(), *each([add(5, publisher=ZERO_KEY), remove(5, publisher=ZERO_KEY), create(0, publisher=ZERO_KEY), slash(publisher=ZERO_KEY),
                                          by_owner(publisher=ZERO_KEY)], "refused 10"),
             *each([add(5, publisher=B), remove(5, publisher=last_byte(A)), create(0, publisher=last_byte(A)), slash(publisher=B), by_owner(publisher=B)],
                   "refused 11")),
    changing("12", seats(), *each([add(5, now=9), add(5, now=11), remove(5, now=9), remove(0, "UNLOCKED", now=11), slash(now=9), slash(now=11)], "refused 12")),
    changing("13: an amount from 2^63 on, UNLOCKED too, ahead of 15", seats(),
             (add(MOST), "ok"), seats(), (add(HALF), "refused 13"), (add(WHOLE, account=STAKE), "refused 13"), (remove(MOST), "ok"),
             *[(remove(HALF, state), "refused 13") for state in STATES], leaves(seats(other=[(0, -MOST)]))),
    changing("13: a change that doesn't fit, behind 15",
             seats(other=[(0, MOST - 5)]), (add(6), "refused 13"), (add(5), "ok"), leaves(seats(other=[(0, MOST)])), (add(1), "refused 13"), (add(0), "ok"),
             seats(other=[(0, 5 - HALF)]), (remove(6), "refused 13"), (remove(6, "UNLOCKING"), "refused 15"), (remove(6, "UNLOCKED"), "ok"), (remove(5, "LOCKING"), "ok"),
             leaves(seats(other=[(0, -HALF)])), (remove(1), "refused 13"), (remove(0), "ok"), (add(MOST), "ok"), leaves(seats(other=[(0, -1)])),
             seats(own=[(0, -1)]), (remove(MOST, account=STAKE), "ok"), leaves(seats(own=[(0, -HALF)])),
             seats(own=[(0, -1)]), (add(HALF, account=STAKE), "refused 13"), (add(MOST, account=STAKE), "ok"), leaves(seats(own=[(0, MOST - 1)])),
             seats(own=[(WHOLE, 0)]), (add(1, account=STAKE), "ok"), leaves(seats(own=[(WHOLE, 1)]))),
    changing("13: a count of slash events that doesn't fit, behind 21",
             seats(slashes=[WHOLE]), (create(WHOLE), "refused 13"), (create(0), "refused 21"), (create(WHOLE - 1), "refused 21"),
             seats(slashes=[WHOLE - 1]), (create(WHOLE - 1), "ok 10"), leaves(seats(slashes=[WHOLE]))),
    changing("13: a slash's next index, ahead of 12, 10 and 11, and where it doesn't apply too",
             seats(**SIDES), (slash(4, 2, index=WHOLE), "refused 13"), (slash(index=WHOLE, now=9), "refused 13"), (slash(index=WHOLE, publisher=ZERO_KEY), "refused 13"),
             (slash(index=WHOLE, event=9), "refused 13"), (slash(index=WHOLE, event=9, next_index=0), "refused 13"), leaves(seats(**SIDES))),
    changing("13: more than the side's total",
             seats(**SIDES), (slash(4, 7), "refused 13"), (slash(11), "refused 13"), (slash(0, 11), "refused 13"), (slash(1, WHOLE), "refused 13"),
             (slash(WHOLE, 11), "refused 13"), (slash(71, account=STAKE), "refused 13"), leaves(seats(**SIDES)), (slash(4, 6), "ok 10 1"),
             leaves(seats(own=[(70, 2)], other=[(0, 3)])),
             seats(other=[(WHOLE, 0)]), (slash(WHOLE, 1), "refused 13"), (slash(WHOLE - 1, 1), "ok 10 1"), leaves(seats(other=[(0, 1)]))),
    changing("13: a slash's change that doesn't fit",
             seats(other=[(10, MOST - 5)]), (slash(0, 6), "refused 13"), (slash(5, 5), "ok 10 1"), leaves(seats(other=[(0, MOST)])),
             seats(other=[(WHOLE, -1)]), (slash(0, HALF), "refused 13"), (slash(0, MOST), "ok 10 1"), leaves(seats(other=[(HALF, MOST - 1)])),
             seats(other=[(WHOLE, -HALF)]), (slash(0, HALF), "refused 13"), (slash(HALF, MOST), "ok 10 1"), leaves(seats(other=[(0, -1)]))),
    changing("add and remove: all faults at once, mended one by one", seats(other=[(0, MOST)], own=[(0, -HALF)]),
             (add(HALF, 9, ZERO_KEY), "refused 10"), (add(HALF, 9, B), "refused 11"), (add(HALF, 9), "refused 12"), (add(HALF), "refused 13"), (add(1), "refused 13"),
             (add(0), "ok"), (remove(HALF, "UNLOCKING", 9, ZERO_KEY, STAKE), "refused 10"), (remove(HALF, "UNLOCKING", 9, B, STAKE), "refused 11"),
             (remove(HALF, "UNLOCKING", 9, A, STAKE), "refused 12"), (remove(HALF, "UNLOCKING", account=STAKE), "refused 13"),
             (remove(MOST, "UNLOCKING", account=STAKE), "refused 15"), (remove(MOST, "LOCKING", account=STAKE), "refused 13"),
             (remove(0, "LOCKING", account=STAKE), "ok"), leaves(seats(other=[(0, MOST)], own=[(0, -HALF)]))),
    changing("slash: all faults at once, mended one by one", seats(**SIDES),
             (slash(11, 0, 9, 10, WHOLE - 1, WHOLE, 8, ZERO_KEY), "refused 19"), (slash(11, 0, 9, 10, WHOLE - 1, WHOLE, 9, ZERO_KEY), "refused 22"),
             (slash(11, 0, 9, 9, WHOLE - 1, WHOLE, 9, ZERO_KEY), "refused 20"), (slash(11, 0, 9, 9, WHOLE, WHOLE, 9, ZERO_KEY), "refused 13"),
             (slash(11, 0, 9, 9, 0, 0, 9, ZERO_KEY), "refused 12"), (slash(11, 0, 10, 10, 0, 0, 10, ZERO_KEY), "refused 10"),
             (slash(11, 0, 10, 10, 0, 0, 10, B), "refused 11"), (slash(11, 0), "refused 13"), (slash(10, 0), "ok 10 1"),
             leaves(seats(own=[(70, 2)], other=[(0, -3)]))),
    changing("19 and 22: the record's epoch and the event's around the current one", seats(**SIDES),
             (slash(epoch=9), "refused 19"), (slash(epoch=11), "refused 19"), (slash(now=9, epoch=8), "refused 19"), (slash(epoch=WHOLE), "refused 19"),
             (slash(event=11), "refused 22"), (slash(now=8, event=9), "refused 22"), (slash(event=WHOLE, index=WHOLE), "refused 22"), (slash(), "ok 10 1")),
    changing("stake account: all faults at once, mended one by one", seats(),
             (stake_account(new_words=[3], old=B, owner=B, old_words=[3], signer=C, publisher=ZERO_KEY), "refused 4"),
             (stake_account(new_words=ONE, signer=C, publisher=ZERO_KEY), "refused 10"), (stake_account(new_words=ONE, signer=C, publisher=B), "refused 11"),
             (stake_account(new_words=ONE, signer=C), "refused 26"), (stake_account(new_words=ONE, signer=A), "refused 26"),
             (by_owner(new_words=ONE, old=B, owner=B, old_words=ONE), "refused 17"), (by_owner(new_words=ONE, old=last_byte(STAKE), owner=B), "refused 17"),
             (by_owner(new_words=ONE, old=ZERO_KEY, owner=B), "refused 17"), (by_owner(new_words=ONE, owner=B, old_words=ONE), "refused 24"),
             (by_owner(new_words=ONE, owner=B), "refused 25"), (by_owner(new_words=ONE), "refused 27"), (by_owner(), "ok"),
             seats(stakes=[]), (stake_account(new_words=ONE, signer=C), "refused 23"), (stake_account(new_words=ONE), "refused 27"), (stake_account(), "ok")),
]

CHANGES = SENTENCES + REFUSED

# Lines with a field wrong, and with one too few or too many.
DIGITS, PAST, STATE, LISTED = A.hex(), str(WORD), "not a state", ",".join(map(str, ONE))
UNOWNED, ABSENT = "an account without its owner", "no account, but its fields"
WRONG = {
    add(5): [(1, "x", NUMBER), (1, PAST, LARGE), (2, "none", KEY), (2, DIGITS[1:], KEY), (3, "none", KEY), (3, DIGITS + "0", KEY), (4, "-1", NUMBER),
             (4, PAST, LARGE), (4, "LOCKED", NUMBER)],
    remove(5): [(1, "-", NUMBER), (2, "g" + DIGITS[1:], KEY), (3, "-", KEY), (4, PAST, LARGE),
                *((5, state, STATE) for state in ("locked", "LOCKE", "LOCKEDX", "1", "-", "none", "WITHDRAWN"))],
    create(0): [(1, PAST, LARGE), (2, "none", KEY), (2, DIGITS[2:], KEY), (3, "x", NUMBER), (3, "-", NUMBER)],
    slash(4, 2): [(1, "x", NUMBER), (2, "none", KEY), (3, DIGITS[:-1], KEY), (4, PAST, LARGE), (5, "-1", NUMBER), (6, "none", NUMBER), (7, "x", NUMBER),
                  (8, PAST, LARGE), (9, "1.", NUMBER)],
    fee(5): [(1, PAST, LARGE), (1, "-", NUMBER), (1, "0x1", NUMBER)],
    by_owner(new_words=ONE): [(1, "none", KEY), (2, "none", KEY), (3, "none", KEY), (3, "-", KEY), (4, "None", KEY), (4, DIGITS[1:], KEY), (5, "-", KEY),
                              (6, "none", NUMBER), (6, "2,", NUMBER), (6, "0," * 2_312, NUMBER), (6, "0," * 2_312 + "0x", KEY), (7, "x", KEY), (8, "none", NUMBER),
                              (8, "1,,2", NUMBER), (8, "0," * 2_312 + PAST, LARGE), (8, "2,1,0,0,0,0x" + DIGITS[1:], KEY), (5, "none", UNOWNED)],
    stake_account(None): [(5, DIGITS, ABSENT), (6, "0", ABSENT), (6, LISTED, ABSENT), (8, "0", ABSENT), (8, LISTED, ABSENT), (8, "0x" + DIGITS, ABSENT)],
}
WRONG_LINES = [(with_field(line, at, field), named(line, at, what)) for line, faults in WRONG.items() for at, field, what in faults]
WRONG_LINES += cut_or_longer(WRONG)
WRONG_LINES += [
    # the account is absent, its owner is not, whatever its positions
    (with_field(by_owner(), 4, "none"), f"stake-account OLD_OWNER: {ABSENT}"), (with_field(by_owner(old_words=ONE), 4, "none"), f"stake-account OLD_OWNER: {ABSENT}"),
    (with_field(by_owner(old_words=ONE), 5, "none"), f"stake-account OLD_OWNER: {UNOWNED}"),
    (with_field(by_owner(new_words=ONE), 7, "none"), f"stake-account NEW_POSITIONS: {ABSENT}"),
    # both accounts are wrong: the old one is named
    (with_field(with_field(stake_account(None), 6, "0"), 8, "0"), f"stake-account OLD_POSITIONS: {ABSENT}"),
    *((line, "an unknown call") for line in (
        "create 10 " + DIGITS + " 0", "Add" + add(5)[3:], "stake_account" + by_owner()[13:], "slash-event 1", "fees 5")),
]

CASES = [
    # before the first `new`
    Case("\n".join(CALLS) + "\n", ["refused 1"] * 6),
    # both lists longer than they are kept, each with its own room
    Case(f"new 1 1\nfresh 10\n{with_field(with_field(by_owner(), 6, '0,' * 2_313 + 'x'), 8, '0,' * 3_000 + '0x')}\n", ["ok 29", "ok", "refused 4"]),
    # keys as items of both lists
    Case(f"new 2 1\nimage {','.join(map(str, seats()))}\n" + "".join(
        with_field(by_owner(), place, f"2,1,0,0,0,0x{key.hex()}") + "\n" for place, key in ((6, A), (8, A), (6, B), (6, B))),
         ["ok 46", "ok 46", "refused 24", "refused 27", "ok", "refused 17"]),
    # the most words of a position list, and keys and lists in either case, with spaces
    Case(f"new 1 1\nfresh 10\n{by_owner(old_words=[0] * 2_313)}\n{by_owner(new_words=[0] * 2_304)}\n", ["ok 29", "ok", "refused 4", "refused 11"]),
    Case("new 1 1\nimage " + ",".join(map(str, seats(keys=[b"\xab" * 32], p=1))) + "\n  add   010  " + "aB" * 32 + " " + ACCOUNT.hex() + "   0005  \nnonzero\n",
         ["ok 29", "ok 29", "ok", leaves(seats(keys=[b"\xab" * 32], other=[(0, 5)], p=1))[1]]),
] + [wrong(*both) for both in WRONG_LINES]
