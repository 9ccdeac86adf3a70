"""Cases with the answers written by hand, for the program, the Rust and the model: a position's state, each sentence of document 01's item 6, and each refusal at its edge.
For the program alone: its wrong lines.

Unless a case says otherwise: activation 5, start 8, unlocking length 1.
"""
from by_hand import stake
from cases import KEY, LARGE, NUMBER, Case, cut_or_longer, named, with_field, with_rest, wrong
from model import HALF, WORD
from states import line

WHOLE = WORD - 1
WEEK, LONGEST = (604_800, 1), (604_800, WHOLE)
STARTED, LOCKED = stake(1, 5, 8), stake(1, 5)


def at(words, **answers):
    """States in these epochs; an epoch's name is e and its number, its answer a state or a refusal."""
    return [(line(int(name[1:]), words), f"refused {its}" if isinstance(its, int) else f"ok {its}") for name, its in answers.items()]


def in_(epoch, words, its):
    return at(words, **{f"e{epoch}": its})[0]


def refused(number, epoch, *lists):
    return [in_(epoch, words, number) for words in lists]


def asking(says, *steps, settings=WEEK):
    """Lines and their answers behind settings, or behind nothing; without a pool."""
    steps = ([(f"settings {settings[0]} {settings[1]}", "ok")] if settings else []) + list(steps)
    return Case("".join(text + "\n" for text, _ in steps), [answer for _, answer in steps], says=says)


STATES = [
    asking("before any other line: Before activation LOCKING; before start PREUNLOCKING; before start + unlocking length UNLOCKING; else UNLOCKED",
           *at(STARTED, e0="LOCKING", e4="LOCKING", e5="PREUNLOCKING", e7="PREUNLOCKING", e8="UNLOCKING", e9="UNLOCKED", e10="UNLOCKED"), settings=None),
    asking("an end that is passed at activation: start 3", *at(stake(1, 5, 3), e4="LOCKING", e5="UNLOCKED")),
    asking("no start LOCKED, and the word of a start that is not there isn't looked at",
           *at(LOCKED, e4="LOCKING", e5="LOCKED", e6="LOCKED"), in_(9, LOCKED[:4] + [3] + LOCKED[5:], "LOCKED"), in_(5, LOCKED[:4] + [WHOLE] + LOCKED[5:], "LOCKED"),
           in_(WHOLE - 1, stake(1, WHOLE), "LOCKING"), in_(WHOLE, stake(1, WHOLE), "LOCKED")),
    asking("a voting position; neither amount nor key makes a difference",
           in_(8, stake(0, 5, 8, 1), "UNLOCKING"), in_(5, stake(WHOLE, 5, None, 1, b"\xff" * 32), "LOCKED"), in_(7, stake(WHOLE, 5, 8, 2, bytes(32)), "PREUNLOCKING")),
    asking("unlocking 0: an epoch is never UNLOCKING, and every end fits", *at(STARTED, e7="PREUNLOCKING", e8="UNLOCKED"),
           in_(WHOLE - 1, stake(1, 5, WHOLE), "PREUNLOCKING"), in_(WHOLE, stake(1, 5, WHOLE), "UNLOCKED"), settings=(604_800, 0)),
    asking("unlocking 3, epochs of a second", *at(STARTED, e7="PREUNLOCKING", e8="UNLOCKING", e10="UNLOCKING", e11="UNLOCKED", e12="UNLOCKED"), settings=(1, 3)),
    asking("13: an end of 2^64 - 1 fits, one of 2^64 doesn't, once activated and not before",
           in_(5, stake(1, 5, WHOLE - 1), "PREUNLOCKING"), in_(WHOLE - 1, stake(1, 5, WHOLE - 1), "UNLOCKING"), in_(WHOLE, stake(1, 5, WHOLE - 1), "UNLOCKED"),
           *at(stake(1, 5, WHOLE), e4="LOCKING", e5=13, e6=13), in_(WHOLE, stake(1, WHOLE, WHOLE), 13), in_(WHOLE - 1, stake(1, WHOLE, WHOLE), "LOCKING")),
    asking("13: the same with unlocking 2^63, in epochs of 2^64 - 1 seconds",
           in_(WHOLE - 1, stake(1, 5, HALF - 1), "UNLOCKING"), in_(WHOLE, stake(1, 5, HALF - 1), "UNLOCKED"), *at(stake(1, 5, HALF), e4="LOCKING", e5=13),
           settings=(WHOLE, HALF)),
    asking("13: the same with unlocking 2^64 - 1", in_(WHOLE - 1, stake(1, 5, 0), "UNLOCKING"), in_(WHOLE, stake(1, 5, 0), "UNLOCKED"),
           *at(stake(1, 5, 1), e4="LOCKING", e5=13), in_(5, LOCKED, "LOCKED"), settings=LONGEST),
    asking("4: lists of 0, 8, 10 and 18 words; kind 3 and above; a flag above 1; an empty position; ahead of 13 and of LOCKING",
           *refused(4, 8, [], STARTED[:8], STARTED + [0], STARTED + STARTED, [3] + STARTED[1:], [WHOLE] + STARTED[1:], [0] * 9, [0] + STARTED[1:],
                    STARTED[:3] + [2] + STARTED[4:], stake(1, 5, 8, 1)[:3] + [WHOLE] + STARTED[4:]),
           *refused(4, 5, [3, 1, 5, 1, WHOLE, 0, 0, 0, 0], [2, 1, 5, 2, WHOLE, 0, 0, 0, 0], [0, 1, 5, 1, WHOLE, 0, 0, 0, 0]),
           *refused(4, 4, [3] + STARTED[1:], [0] + STARTED[1:])),
    asking("asked of no pool: P or E out of range, an image of another length, epoch seconds 0", ("new 2 53", "ok 0"), in_(8, STARTED, "UNLOCKING"),
           ("image 1,2,3", "ok 3"), in_(9, STARTED, "UNLOCKED"), in_(5, stake(1, 5, WHOLE), 13), ("image", "ok 1 2 3"), ("new 1 1", "ok 29"), in_(5, LOCKED, "LOCKED"),
           ("nonzero", "ok"), settings=(0, 1)),
]

# Lines with a field wrong, and with one too few or too many.
ASKED, PAST = line(8, STARTED), str(WORD)
WRONG_LINES = [(with_field(ASKED, place, field), named(ASKED, place, what)) for place, field, what in (
    (1, "x", NUMBER), (1, "-", NUMBER), (1, PAST, LARGE), (2, "none", NUMBER), (2, "LOCKED", NUMBER), (2, "2,", NUMBER), (2, "2,,1", NUMBER), (2, "2," + PAST, LARGE),
    (2, "2,1,5,1,8,0x" + "0" * 63, KEY), (2, "0," * 2_312, NUMBER), (2, "0," * 2_312 + PAST, LARGE))]
WRONG_LINES += cut_or_longer([ASKED])
WRONG_LINES += [(text, "an unknown call") for text in ("State 8 -", "states 8 -", "position-state 8 -", "stat 8 -")]

CASES = [
    # the most words of a list; leading zeros, spaces
    Case(f"state 8 {','.join(['0'] * 2_313)}\n  state   0008  02,1,05,01,{'0' * 30}8,0,0,0,0  \n", ["refused 4", "ok UNLOCKING"]),
    with_rest(line(8, [0] * 2_313), "refused 4"),
    # the key as one item; as one of its four words it is too few
    Case(f"state 8 2,1,5,1,8,0x{'aB' * 32}\nstate 8 2,1,5,1,8,0x{'0' * 64},0\nstate 8 2,1,5,1,0x{'0' * 64}\n", ["ok UNLOCKING", "refused 4", "refused 4"]),
] + [wrong(*both) for both in WRONG_LINES]
