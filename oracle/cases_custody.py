"""Cases with the answers written by hand, for the program and the model, and for the Rust where it answers alike: an advance and a forecast on a drained
custody, each sentence of document 02's request [8].

Unless a case says otherwise: P 2, E 2, last epoch 10, claimable 7, n 2, events of epochs 9 and 8; y 10,000; key A on the first seat, its self total 600,000
with change 400,000, its other total 1,000,000 with change -500,000, fee 200,000. Rows: A with cap 800,000, B, which takes the seat left, C, which is
dropped. In the first passed epoch 600,000 and 200,000 are eligible, which makes the ratios 1,000,000 and 200,000; rolled, the totals are 1,000,000 and
500,000, and in later epochs 800,000 and 0 are eligible, which makes 800,000 and 0. So T is 800,000 for each epoch, and R 8,000.
"""
from by_hand import A, B, C, STAKE, advance, payment, row, seats, stake
from cases import paying
from cases_changes import leaves
from model import HALF, M, WORD

WHOLE = WORD - 1
ROWS = [row(A, 800_000), row(B, 5), row(C)]
FIRST, LATER = (M, 200_000, 200_000), (800_000, 0, 200_000)     # self ratio, other ratio, fee
OLD = [(9, 9_999, [(1, 2, 3)]), (8, 9_998, [(4, 5, 6)])]
ROLLED = dict(own=[(1_000_000, 0)], other=[(500_000, 0)])


def image(epochs=OLD, own=((600_000, 400_000),), other=((1_000_000, -500_000),), claimable=7, last=10, n=2, keys=(A,)):
    return seats(keys, [STAKE], own, other, [], [200_000], last, n, 2, 2, claimable, epochs)


def moved(claimable=7, n=3, y=0, own=((1_000_000, 0),), other=((500_000, 0),), first=FIRST, keys=(A, B), old=OLD[0]):
    """The image behind an advance of one epoch: epoch 10 is written over the event of epoch 8."""
    return leaves(image([(10, y, [first]), old], own, other, claimable, 11, n, keys))


def advanced(now, custody, answer, rows=ROWS, **others):
    return advance(now, custody, rows, **others), answer


def forecast(now, custody, answer, **others):
    return advanced(now, custody, answer, name="forecast", **others)


def holding(says, *steps, listed=False):
    return paying(says, *steps, p=2, e=2, listed=listed)


CASES = [
    holding("Such an advance now passes: y' is 0, nothing is set aside, events are written and totals roll; claimable is one above custody, half of it, all",
            image(), forecast(11, 6, "ok 0"), leaves(image()), advanced(11, 6, "ok 0 0 1 1 1"), moved(),
            image(), forecast(11, 3, "ok 0"), advanced(11, 3, "ok 0 0 1 1 1"), moved(),
            image(), forecast(11, 0, "ok 0"), advanced(11, 0, "ok 0 0 1 1 1"), moved(),
            image(claimable=WHOLE - 8_000), advanced(11, WHOLE - 8_001, "ok 0 0 1 1 1"), moved(WHOLE - 8_000), listed=True),
    # A 0: y' 10,000 * 0 / 8,000; A 1: 1.25, and 0.8 set aside; A 3: 3.75, and 2.4
    holding("Every advance accepted earlier answers as it did: claimable equal to custody and below it",
            image(), forecast(11, 7, "ok 0"), advanced(11, 7, "ok 0 0 1 1 1"), moved(),
            image(), forecast(11, 8, "ok 0"), advanced(11, 8, "ok 1 0 1 1 1"), moved(y=1),
            image(), forecast(11, 10, "ok 2"), advanced(11, 10, "ok 3 2 1 1 1"), moved(claimable=9, y=3),
            image(), forecast(11, 8_007, "ok 8000"), advanced(11, 8_007, "ok 10000 8000 1 1 1"), moved(claimable=8_007, y=10_000)),
    holding("y' is 0 whatever y and T are",
            image(), forecast(11, 6, "ok 0", y=0), advanced(11, 6, "ok 0 0 1 1 1", y=0), moved(),
            image(), forecast(11, 6, "ok 0", rows=[]), advanced(11, 6, "ok 0 0 0 0 0", rows=[]), moved(first=(0, 0, 200_000), keys=[A]),
            image(), forecast(11, 6, "ok 0", rows=[], y=0), advanced(11, 6, "ok 0 0 0 0 0", rows=[], y=0), moved(first=(0, 0, 200_000), keys=[A]), listed=True),
    holding("with T 0 custody of 7 covers what is claimable, and y' is y",
            image(), forecast(11, 7, "ok 0", rows=[]), advanced(11, 7, "ok 10000 0 0 0 0", rows=[]), moved(y=10_000, first=(0, 0, 200_000), keys=[A])),
    holding("13 for R + claimable stays ahead: 8,000 and claimable are 2^64, whatever custody is",
            image(claimable=WORD - 8_000), *(step for custody in (WHOLE - 8_000, 6, 0, WHOLE) for step in (
                forecast(11, custody, "refused 13"), advanced(11, custody, "refused 13"))), leaves(image(claimable=WORD - 8_000))),
    holding("and are 2^64 - 1",
            image(claimable=WHOLE - 8_000), forecast(11, WHOLE - 8_001, "ok 0"), forecast(11, 0, "ok 0"), advanced(11, 0, "ok 0 0 1 1 1"), moved(WHOLE - 8_000),
            image(claimable=WHOLE), forecast(11, WHOLE - 1, "ok 0", y=0), advanced(11, WHOLE - 1, "ok 0 0 1 1 1", y=0), moved(WHOLE), listed=True),
    # 99,999,999 for the first epoch, 100,000,000 for a later one: R is 999,999 and 1,000,000; then the other way round. The ratio is 1,000,000
    holding("a forecast has its own sum in place of T",
            image(own=[], other=[(99_999_999, 1)], claimable=WORD - 10**6), forecast(11, 6, "refused 13", rows=[row(A)]),
            advanced(11, 6, "ok 0 0 1 0 0", rows=[row(A)]),
            moved(WORD - 10**6, own=[], other=[(100_000_000, 0)], first=(0, M, 200_000), keys=[A]),
            image(own=[], other=[(100_000_000, -1)], claimable=WORD - 10**6), forecast(11, 6, "ok 0", rows=[row(A)]),
            advanced(11, 6, "refused 13", rows=[row(A)]), leaves(image(own=[], other=[(100_000_000, -1)], claimable=WORD - 10**6)), listed=True),
    holding("n reaching 2^63 is 13; one below that it passes",
            image(n=HALF - 1), forecast(11, 6, "refused 13"), advanced(11, 6, "refused 13"), leaves(image(n=HALF - 1)),
            image(n=HALF - 2), forecast(11, 6, "ok 0"), advanced(11, 6, "ok 0 0 1 1 1"), moved(n=HALF - 1), listed=True),
    holding("the other refusals are as they were",
            image(), forecast(11, 6, "refused 5", y=10_001), advanced(11, 6, "refused 5", y=10_001), forecast(11, 6, "refused 7", verified=0),
            advanced(11, 6, "refused 7", verified=0), advanced(10, 6, "refused 8"), leaves(image()),
            image(own=[(5, -6)]), forecast(11, 6, "refused 13"), advanced(11, 6, "refused 13"), leaves(image(own=[(5, -6)]))),
    # events 2 to 6 for the epochs 10 to 14: 13 and 14 stay
    holding("over more epochs than the ring has slots",
            image(), forecast(15, 6, "ok 0"), advanced(15, 6, "ok 0 0 1 1 1"),
            leaves(image([(14, 0, [LATER]), (13, 0, [LATER])], **ROLLED, last=15, n=7, keys=[A, B])),
            image(), forecast(12, 6, "ok 0"), advanced(12, 6, "ok 0 0 1 1 1"),
            leaves(image([(11, 0, [LATER]), (10, 0, [FIRST])], **ROLLED, last=12, n=4, keys=[A, B])), listed=True),
    # 1,000,000 earns 4,000 and 1,000 in epoch 9, at y 10,000, ratio 500,000 and fee 200,000
    holding("a payment earns nothing from such an event, and what it earned before",
            image([(9, 10_000, [(M, 500_000, 200_000)]), OLD[1]], claimable=5_000), advanced(11, 4_999, "ok 0 0 1 1 1"),
            (payment(stake(1_000_000), now=11, epoch=10), "ok 0 0 11 3 2 0"), (payment(stake(1_000_000), now=11, epoch=10, account=STAKE), "ok 0 0 11 3 2 0"),
            moved(5_000, old=(9, 10_000, [(M, 500_000, 200_000)])),
            (payment(stake(1_000_000), now=11, epoch=9), "ok 4000 1000 11 3 2 5000"), moved(0, old=(9, 10_000, [(M, 500_000, 200_000)])),
            (payment(stake(1_000_000), now=11, epoch=9), "refused 16"), listed=True),
    # A 7,999: y' 9,998.75, and 7,998.4 set aside; then R is covered. B has a seat and nothing staked
    holding("custody is filled again, and the next advance is as ever; drained twice, and filled",
            image(), advanced(11, 6, "ok 0 0 1 1 1"), forecast(12, 8_007, "ok 8000"), advanced(12, 8_006, "ok 9998 7998 2 0 1"),
            leaves(image([(11, 9_998, [LATER, (0, 0, 0)]), (10, 0, [FIRST])], **ROLLED, claimable=8_005, last=12, n=4, keys=[A, B])),
            forecast(13, 8_004, "ok 0"), advanced(13, 0, "ok 0 0 2 0 1"), advanced(14, 8_004, "ok 0 0 2 0 1"),
            leaves(image([(13, 0, [LATER, (0, 0, 0)]), (12, 0, [LATER, (0, 0, 0)])], **ROLLED, claimable=8_005, last=14, n=6, keys=[A, B])),
            advanced(15, 16_005, "ok 10000 8000 2 0 1"),
            leaves(image([(14, 10_000, [LATER, (0, 0, 0)]), (13, 0, [LATER, (0, 0, 0)])], **ROLLED, claimable=16_005, last=15, n=7, keys=[A, B])), listed=True),
]
