"""Cases with the answers written by hand, for the program and the model: `show`, the pool as a table. The Rust has none.

Unless a case says otherwise: P 2, E 4.
"""
from by_hand import A, B, pool, seats
from cases import paying
from model import HALF, WORD, ZERO_KEY

WHOLE = WORD - 1
KEY, ACCOUNT = bytes(range(1, 33)), bytes.fromhex("aabbccdd" + "00" * 24 + "11223344")
FIRST, LAST = b"\1" + bytes(31), bytes(31) + b"\1"      # keys of which one byte is not zero
SEATS = "  seat  publisher           side                  total                change      fee  slash events  stake account"
EVENTS = "                 event                  slot                 epoch                     y"


def table(last, claimable, events, seated, *lines):
    return "\n".join([f"ok {4 + len(lines)}", f"  last epoch  {last}", f"  claimable   {claimable}", f"  events      {events}", f"  seats       {seated}", *lines])


def shown(*given):
    return "show", table(*given)


def event(*figures):
    """Its columns, each of 20 places."""
    return "".join(f"  {figure:>20}" for figure in figures)


CASES = [
    paying("an empty pool", shown(0, 0, 0, "0 of 2", SEATS, EVENTS),
           ("fresh 10", "ok"), shown(9, 0, 0, "0 of 2", SEATS, EVENTS), p=2),
    paying("a filled one; a seat behind two empty ones; a stake account and none",
           seats(keys=[KEY, ZERO_KEY, ZERO_KEY, B], stakes=[ACCOUNT, ACCOUNT], own=[(100, -5), (7, 7), (8, 8), (0, 0)],
                 other=[(2_000, 50), (0, 0), (0, 0), (31, -32)], slashes=[0, 4, 5, 12], fees=[100_000, 9, 9, 1_000_000], last=14, claimable=123, p=4),
           shown(14, 123, 0, "2 of 4", SEATS,
                 "     0  01020304..1d1e1f20  self                    100                    -5   100000             0  aabbccdd..11223344",
                 "                            other                  2000                    50",
                 "     3  02000000..00000000  self                      0                     0  1000000            12  none",
                 "                            other                    31                   -32", EVENTS), p=4, e=1),
    paying("every key counts of which one byte is not zero", seats(keys=[FIRST, LAST], stakes=[LAST, FIRST]),
           shown(10, 0, 0, "2 of 2", SEATS,
                 "     0  01000000..00000000  self                      0                     0        0             0  00000000..00000001",
                 "                            other                     0                     0",
                 "     1  00000000..00000001  self                      0                     0        0             0  01000000..00000000",
                 "                            other                     0                     0", EVENTS),
           seats(keys=[bytes(8) + b"\1" + bytes(23), bytes(23) + b"\xff" + bytes(8)], stakes=[bytes(15) + b"\1" + bytes(16)]),
           shown(10, 0, 0, "2 of 2", SEATS,
                 "     0  00000000..00000000  self                      0                     0        0             0  00000000..00000000",
                 "                            other                     0                     0",
                 "     1  00000000..00000000  self                      0                     0        0             0  none",
                 "                            other                     0                     0", EVENTS), p=2, e=1),
    paying("changes from -2^63 to 2^63 - 1, and totals at both ends",
           seats(keys=[A, B], own=[(0, -1), (WHOLE, HALF - 1)], other=[(HALF, -HALF), (1, -HALF + 1)]),
           shown(10, 0, 0, "2 of 2", SEATS,
                 "     0  01000000..00000000  self                      0                    -1        0             0  07000000..00000000",
                 "                            other   9223372036854775808  -9223372036854775808",
                 "     1  02000000..00000000  self   18446744073709551615   9223372036854775807        0             0  none",
                 "                            other                     1  -9223372036854775807", EVENTS), p=2, e=1),
    paying("numbers wider than their column move the line",
           seats(keys=[A], stakes=[], own=[(9, 10)], other=[(99, 100)], slashes=[WHOLE], fees=[10_000_000], last=WHOLE, claimable=WHOLE),
           shown(WHOLE, WHOLE, 0, "1 of 2", SEATS,
                 "     0  01000000..00000000  self                      9                    10  10000000  18446744073709551615  none",
                 "                            other                    99                   100", EVENTS), p=2, e=1),
    paying("fewer events than the ring has slots, as many, more; slots never written are not shown",
           pool([9], keys=[], unread=WHOLE), shown(10, 1_000_000, 1, "0 of 1", SEATS, EVENTS, event(0, 0, 9, 10_000)),
           pool([(9, 1, []), (8, 2, []), (7, 3, [])], keys=[], unread=WHOLE),
           shown(10, 1_000_000, 3, "0 of 1", SEATS, EVENTS, event(2, 2, 9, 1), event(1, 1, 8, 2), event(0, 0, 7, 3)),
           pool(keys=[]),
           shown(10, 1_000_000, 4, "0 of 1", SEATS, EVENTS, event(3, 3, 9, 10_000), event(2, 2, 8, 10_000), event(1, 1, 7, 10_000), event(0, 0, 6, 10_000)),
           pool([(WHOLE, 0, []), (0, WHOLE, []), (12, 3, []), (11, 2, [])], n=6, keys=[]),
           shown(10, 1_000_000, 6, "0 of 1", SEATS, EVENTS, event(5, 1, WHOLE, 0), event(4, 0, 0, WHOLE), event(3, 3, 12, 3), event(2, 2, 11, 2)),
           pool([], keys=[], unread=WHOLE), shown(10, 1_000_000, 0, "0 of 1", SEATS, EVENTS)),
    paying("the most events that an image may count", pool([9, 8, 7], e=3, n=HALF - 1),
           shown(10, 1_000_000, HALF - 1, "1 of 1", SEATS,
                 "     0  01000000..00000000  self                      0                     0        0             0  07000000..00000000",
                 "                            other                     0                     0", EVENTS,
                 event(HALF - 2, 0, 9, 10_000), event(HALF - 3, 2, 8, 10_000), event(HALF - 4, 1, 7, 10_000)),
           pool([9, 8, 7], e=3, n=HALF), ("show", "refused 1"), e=3),
    paying("refused 1: the image's length, P and E",
           [], ("show", "refused 1"), pool()[:-1], ("show", "refused 1"), pool() + [0], ("show", "refused 1"), pool(n=WHOLE), ("show", "refused 1"),
           ("new 0 4", "ok 0"), ("show", "refused 1"), ("new 1 53", "ok 0"), ("show", "refused 1"), ("new 1025 1", "ok 0"), ("show", "refused 1"),
           ("new 1 1", "ok 29"), shown(0, 0, 0, "0 of 1", SEATS, EVENTS)),
]
