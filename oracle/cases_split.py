"""Cases with the answers written by hand, for the program, the driver's plain function and the model: a reward split among clients, each sentence of
document 02's request [1], and each refusal at its edge. For the program alone: its wrong lines, and what is kept of the weights.

A comment has the divisions that answers come from, as floor and remainder for each client.
"""
from cases import BEHIND, DIGITS, FOUR, KEY, LARGE, NO_KEYS, NUMBER, Case, cut_or_longer, named, with_field, with_rest, wrong
from cases_state import asking
from image import HALF, WORD
from splits import line

WHOLE = WORD - 1
THIRD, FIFTH = WHOLE // 3, WHOLE // 5       # both divide it
ONES, ZEROS = [1] * 64, [0] * 64


def split(reward, weights, *its):
    """The line and its answer, the parts."""
    return line(reward, weights), " ".join(["ok", *map(str, its)])


def refused(number, *asked):
    """Lines, each of a reward and weights, with this answer."""
    return [(line(*both), f"refused {number}") for both in asked]


def splitting(says, *steps):
    return asking(says, *steps, settings=None)


# The table has the first lines of each.
SPLITS = [
    splitting("before any other line: reward times weight over the weight sum, rounded down; nothing is left where all divide",
              split(100, [1, 1, 2], 25, 25, 50), split(12, [3, 0, 1], 9, 0, 3), split(10**15, [10**15, 3 * 10**15], 25 * 10**13, 75 * 10**13),
              split(6, [3, 2, 1], 3, 2, 1)),
    # 17 11, 29 7, 52 16: two are left, for the third and the first. 0 2, 0 1; 0 1, 0 2. 3 1, 3 1, 1 3 of 5
    splitting("the units left go one each to the largest remainders",
              split(100, [3, 5, 9], 18, 29, 53), split(1, [2, 1], 1, 0), split(1, [1, 2], 0, 1), split(8, [2, 2, 1], 3, 3, 2)),
    # 1 1, 2 2, 1 1 of 4. 0 6, 0 9, 0 6, 0 9 of 10. 0 6, 0 3, 0 6, 0 6 of 7, two are left
    splitting("ties to the earlier client",
              split(2, [1, 1, 1], 1, 1, 0), split(3, [2, 3, 2, 3], 1, 1, 0, 1), split(3, [2, 1, 2, 2], 1, 0, 1, 1), split(1, [1, 1, 1], 1, 0, 0),
              split(5, [1, 1, 1], 2, 2, 1), split(10, [7, 7, 7, 7], 3, 3, 2, 2), split(5, [1, 2, 1], 1, 3, 1)),
    # 1 3, 2 2 of 5
    splitting("a larger weight may get no more than a smaller one, and never less", split(4, [2, 3], 2, 2), split(4, [3, 2], 2, 2)),
    # 2 1, 4 2 of 3 beside the zeros
    splitting("a weight of 0 gets 0, whatever is left",
              split(7, [0, 1, 0, 2], 0, 2, 0, 5), split(1, [0, 0, 1, 0, 1], 0, 0, 1, 0, 0), split(WHOLE, [0] * 63 + [1], *[0] * 63, WHOLE)),
    splitting("a reward of 0, and one client",
              split(0, [1, 2, 3], 0, 0, 0), split(7, [5], 7), split(WHOLE, [WHOLE], WHOLE), split(WHOLE, [1], WHOLE), split(0, [WHOLE], 0),
              split(WHOLE - 1, [WHOLE], WHOLE - 1)),
    # 2,079 w over 2,080 is w - 1, with 2,080 - w: 63 are left, for all but the largest weight
    splitting("64 weights; as many units left as there can be, one less than there are clients",
              split(2_079, list(range(1, 65)), *range(1, 64), 63), split(63, ONES, *[1] * 63, 0), split(62, [0] + [1] * 63, 0, *[1] * 62, 0),
              split(64 * 5 + 1, ONES, 6, *[5] * 63), split(128, ONES, *[2] * 64), split(1, [0] + [1] * 63, 0, 1, *[0] * 62)),
    # 2^63 - 1 and 1 of 2 each. One below the sum: a weight less 1, with the sum less the weight. Two below it: a fifth less 1, with 3 fifths of the sum, and
    # four fifths less 2, with 2 fifths
    splitting("products past 64 bits",
              split(WHOLE, [1, 1], HALF, HALF - 1), split(WHOLE - 1, [HALF, HALF - 1], HALF - 1, HALF - 1),
              split(WHOLE - 2, [FIFTH, WHOLE - FIFTH], FIFTH, WHOLE - FIFTH - 2), split(WHOLE, [THIRD] * 3, THIRD, THIRD, THIRD),
              split(WHOLE - 1, [THIRD] * 3, THIRD, THIRD, THIRD - 1), split(WHOLE - 1, [HALF - 1, HALF], HALF - 1, HALF - 1)),
    splitting("13: a sum of 2^64 - 1 fits, one of 2^64 doesn't",
              split(1, [WHOLE - 2, 1, 1], 1, 0, 0), *refused(13, (1, [WHOLE, 1]), (0, [HALF, HALF])), split(WHOLE, [WHOLE - 1, 1], WHOLE - 1, 1),
              split(5, [0, WHOLE, 0], 0, 5, 0), *refused(13, (5, [1] * 63 + [WHOLE - 62])), split(0, [1] * 63 + [WHOLE - 63], *ZEROS)),
    splitting("13: whatever the weights behind make of it, a sum of 0, 5 or 2^64 - 1 in its lower 64 bits",
              *refused(13, (1, [HALF] * 4), (1, [WHOLE, 1, 5]), (0, [HALF, HALF, WHOLE]), (WHOLE, [WHOLE] * 64), (7, [WHOLE, 1] + [0] * 62))),
    splitting("29: a sum of zero, no weights included", *refused(29, (5, []), (0, [0]), (WHOLE, ZEROS), (0, []))),
    splitting("28, ahead of 13 and of 29",
              *refused(28, (65, ONES + [1]), (1, [WHOLE] * 65), (5, ZEROS + [0]), (1, [WHOLE, 1] + [0] * 63), (0, [0] * 400))),
    splitting("asked of no pool: P or E out of range, an image of another length, epoch seconds 0; the image and the settings stay",
              ("settings 0 1", "ok"), ("new 2 53", "ok 0"), split(3, [1, 2], 1, 2), ("image 1,2,3", "ok 3"), *refused(28, (3, ONES + [1])),
              split(3, [2, 1], 2, 1), ("image", "ok 1 2 3"), ("new 1 1", "ok 29"), split(5, [1], 5), ("nonzero", "ok"),
              ("advance 10 10000 0 1 -", "refused 2")),
]

# Lines with a field wrong, and with one too few or too many.
ASKED, PAST = line(8, [3, 5]), str(WORD)
WRONG_LINES = [(with_field(ASKED, place, field), named(ASKED, place, what)) for place, field, what in (
    (1, "x", NUMBER), (1, "-", NUMBER), (1, "1,2", NUMBER), (1, "0x" + DIGITS, NUMBER), (1, PAST, LARGE), (2, "none", NUMBER), (2, "3,", NUMBER),
    (2, ",3", NUMBER), (2, "3,,5", NUMBER), (2, "-,3", NUMBER), (2, "3,-5", NUMBER), (2, PAST, LARGE), (2, "3," + PAST, LARGE), (2, "1," * 64 + "x", NUMBER),
    (2, "1," * 64, NUMBER), (2, "1," * 64 + PAST, LARGE), (2, "1," * 64 + "0x1", KEY), *((2, item, KEY) for item in NO_KEYS))]
WRONG_LINES += cut_or_longer([ASKED])
WRONG_LINES += [(text, "an unknown call") for text in ("Split 8 3", "splits 8 3", "spli 8 3", "client-split 8 3")]

# Keys by their words.
A_ONE, A_FOUR = ("0x" + "".join(f"{n:02x}" + "0" * 14 for n in four) for four in ((1, 1, 1, 1), (1, 2, 3, 4)))
CASES = [
    # leading zeros, spaces, a carriage return
    Case(f"  split   0008  {'0' * 30}3,05  \nsplit 8 -\r\n", ["ok 3 5", "refused 29"]),
    # keys in either case
    Case(f"split 20 {A_FOUR},10\nsplit 7 0x{'0' * 64}\nsplit 7 0x{'0' * 62}Ff,0x{'0' * 62}fF\nsplit 0 0x{DIGITS}\nsplit 0 {FOUR}\n",
         ["ok 1 2 3 4 10", "refused 29", "refused 13", "ok 0 0 0 0", "ok 0 0 0 0"]),
    Case(f"split 4 {','.join([A_ONE] * 16)}\nsplit 4 {','.join([A_ONE] * 16)},0\n", ["ok 1 1 1 1" + " 0" * 60, "refused 28"]),
    Case(f"split 8 {'0,' * 60}{A_FOUR}\nsplit 0 {'0,' * 60}{A_FOUR}\n", ["ok" + " 0" * 60 + " 1 2 2 3", "ok" + " 0" * 64]),
    # one weight more than the library takes is kept, of a key that the room ends in the first words; what is behind is not looked at
    with_rest(line(8, ONES + [1]), "refused 28"),
    *(with_rest(f"split 8 {'0,' * (65 - words)}0x{DIGITS}", "refused 28", BEHIND[:5]) for words in (1, 2, 3, 4)),
] + [wrong(*both) for both in WRONG_LINES]
