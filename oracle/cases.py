"""Cases with the answers written by hand. For the program alone: the journal's forms, files, wrong lines. For the program, the Rust and the
model: payments, each sentence of document 01's item 8 and each refusal at its edge.

Of a wrong line the whole text is the program's; the Rust's is compared up to the colon.
"""
from typing import NamedTuple

import model
from by_hand import A, B, C, SHARE, STAKE, last_byte, payment, pool, stake
from model import HALF, M, WORD, ZERO_KEY

LARGEST = 174_551       # words of the largest image; of a longer one 174,552 are kept
NO_ROWS = "0200000000005c49000000"      # time 6,048,000, the first second of epoch 10
ONE_ROW = "0200000000005C49000001AB000000000000000000000000000000000000000000000000000000000000CD0000000000000000"
FRESH = "ok 29|ok".split("|")           # to `new 1 1` and `fresh 10`


class Case(NamedTuple):
    journal: str
    answers: list
    files: dict = {}        # before the run
    left: dict = {}         # after it, and no second name; none: no such file
    says: str = ""          # what it shows
    listed: bool = False    # the Rust answers otherwise, as docs/DIFFERENCES.md lists


def fits(got, wanted, oracle):
    """The oracle's `outside` fits any refusal and any table: where the Rust can't be asked."""
    if oracle and wanted.startswith("line "):
        return got.split(":")[0] == wanted.split(":")[0]
    return got == wanted or (got == "outside" and (wanted.startswith("refused") or "\n" in wanted))


def little_endian(words):
    return b"".join(w.to_bytes(8, "little") for w in words)


def wrong(line, what):
    """A line that ends the run; the one behind it is not answered."""
    return Case(f"new 1 1\n{line}\nnonzero\n", ["ok 29", f"line 2: {what}"])


def named(line, at, what):
    """What is said of a line's wrong field, the first being 1."""
    call = line.split()[0]
    return f"{call} {FIELDS[call].split()[at - 1]}: {what}"


def with_field(line, at, field):
    """The line with another field in this place; the first is 1."""
    fields = line.split()
    return " ".join(fields[:at] + [field] + fields[at + 1:])


def cut_or_longer(lines):
    """Lines that end before each of their fields, and lines with one more; each with what is said of it."""
    cut = [(" ".join(line.split()[:at]), named(line, at, FEW)) for line in lines for at in range(1, len(line.split()))]
    return cut + [(f"{line} {more}", f"{line.split()[0]}: {MANY}") for line in lines for more in "0-"]


# The fields' names, as the README's table has them.
FIELDS = {
    "new": "P E", "settings": "SECONDS UNLOCKING", "image": "WORDS", "nonzero": "", "load": "PATH", "save": "PATH", "fresh": "EPOCH",
    "advance": "NOW Y CUSTODY VERIFIED CAPS", "forecast": "NOW Y CUSTODY VERIFIED CAPS",
    "payment": "NOW PUBLISHER ACCOUNT RECORD_EPOCH NEXT_INDEX PUBLISHER_ACCOUNT CUSTODY_FLAG POSITIONS", "add": "NOW PUBLISHER ACCOUNT AMOUNT",
    "remove": "NOW PUBLISHER ACCOUNT AMOUNT STATE", "create-slash-event": "NOW PUBLISHER INDEX",
    "slash": "NOW PUBLISHER ACCOUNT RECORD_EPOCH NEXT_INDEX INDEX EVENT_EPOCH LOCKED PREUNLOCKING", "fee": "FEE",
    "stake-account": "PUBLISHER SIGNER AUTHORITY OLD OLD_OWNER OLD_POSITIONS NEW NEW_POSITIONS", "state": "EPOCH POSITION",
    "split": "REWARD WEIGHTS", "show": "",
    "help": "CALL", "quit": "",
}
FEW, MANY, NUMBER, LARGE, KEY = "a field too few", "a field too many", "not a number", "a number too large", "not a key"


ITEM = "x" * 131_073        # an item longer than the program's buffer
CALL = "an unknown call"
DIGITS = bytes(range(1, 33)).hex()      # of a key, and its four words
FOUR = "578437695752307201,1157159078456920585,1735880461161533969,2314601843866147353"
# Items of a list that begin as keys do and are none.
NO_KEYS = ["0x", "0x0", "0x" + DIGITS[1:], "0x" + DIGITS + "0", "0x" + DIGITS[:-1] + "g", "0x0x" + DIGITS[2:], "0x" + DIGITS + "\t"]
WRONG_LINES = [
    ("unknown", CALL), ("New 1 1", CALL), ("new\t1 1", CALL), ("\x00", CALL), ("\x7f", CALL), ("é", CALL), ("show.", CALL), ("sho", CALL),
    (ITEM, "a field too long"),
    ("new 18446744073709551616 1", "new P: a number too large"), ("new 1 18446744073709551616", "new E: a number too large"),
    ("new 1 99999999999999999999999999", "new E: a number too large"), ("new 1 -1", "new E: not a number"), ("new +1 1", "new P: not a number"),
    ("new 1 0x1", "new E: not a number"), ("new 1 1.", "new E: not a number"), ("new 1 1\r\r", "new E: not a number"),
    ("new 1 1\r ", "new E: not a number"), ("new 1\r 1", "new P: not a number"), ("new\r 1 1", CALL), ("\rnew 1 1", CALL), ("\r\r", CALL),
    (f"new 0x{DIGITS} 1", "new P: not a number"), ("new 1 1 \r\r", "new: a field too many"),
    ("new 1\t1", "new P: not a number"), ("new x y", "new P: not a number"), ("new " + ITEM, "new P: a field too long"),
    ("settings x 2", "settings SECONDS: not a number"), ("settings 1 x", "settings UNLOCKING: not a number"),
    ("fresh ten", "fresh EPOCH: not a number"), ("fresh -", "fresh EPOCH: not a number"), ("nonzero 1", "nonzero: a field too many"),
    ("show 1", "show: a field too many"), ("show show", "show: a field too many"), ("image 1 2", "image: a field too many"),
    *((f"help {call}", "help CALL: an unknown call") for call in ("x", "New", "neww", "ne", "new\r\r", "new\t", "leaf", "-", "0", "\x00")),
    ("help " + ITEM, "help CALL: a field too long"), ("help new E", "help: a field too many"), ("help x y", "help CALL: an unknown call"),
    ("quit 1", "quit: a field too many"), ("quit quit", "quit: a field too many"), ("Quit", CALL), ("quit.", CALL), ("HELP", CALL), ("help,", CALL),
    *((f"image {words}", "image WORDS: not a number") for words in (",", "1,", ",1", "1,,2", "1,x", "-1", "--", "-,1")),
    ("image 18446744073709551616", "image WORDS: a number too large"), ("image 1," + ITEM, "image WORDS: a field too long"),
    *((f"image {words}", "image WORDS: not a key") for item in NO_KEYS for words in (item, "1," + item, item + ",x")),
    (f"image 0x{DIGITS},", "image WORDS: not a number"), (f"image 0x{DIGITS},,1", "image WORDS: not a number"), (f"image 0X{DIGITS}", "image WORDS: not a number"),
    (f"image 1,-0x{DIGITS}", "image WORDS: not a number"), (f"image {DIGITS}", "image WORDS: not a number"), ("image 0x" + ITEM, "image WORDS: a field too long"),
    # the last word that is kept is looked at
    ("image " + "0," * LARGEST + "x", "image WORDS: not a number"), ("image " + "0," * LARGEST + "0x1", "image WORDS: not a key"),
    ("image " + "0," * LARGEST, "image WORDS: not a number"), ("image " + "0," * LARGEST + ITEM, "image WORDS: a field too long"),
    ("load missing", "load PATH: the file can't be read"), ("load " + "a" * 40_973, "load PATH: a path too long"),
    ("save missing/pool", "save PATH: the file can't be written"), ("save " + "a" * 40_973, "save PATH: a path too long"),
    ("advance x 10000 0 1 -", "advance NOW: not a number"),
    ("advance 10 18446744073709551616 0 1 -", "advance Y: a number too large"), ("advance 10 10000 -1 1 -", "advance CUSTODY: not a number"),
    ("advance 10 10000 0 18446744073709551616 -", "advance VERIFIED: a number too large"),
    *((f"advance 10 10000 0 1 {caps}", "advance CAPS: not a message") for caps in ("0", "0g", "--")),
    ("advance 10 10000 0 1 " + ITEM, "advance CAPS: not a message"), ("advance 10 10000 0 1 " + "0" * 81_943, "advance CAPS: not a message"),
    ("advance 10 10000 0 1 " + "0" * 81_943 + "g", "advance CAPS: not a message"), ("advance 10 10000 0 1 " + "0" * 81_943 + "g" + "0" * 60_000, "advance CAPS: not a message"),
    ("advance 10 10000 0 1 " + "0" * 81_944 + " 0", "advance: a field too many"),
    ("forecast 10 x 0 1 -", "forecast Y: not a number"), ("forecast 10 10000 0 1 020", "forecast CAPS: not a message"),
    ("forecast 10 10000 0 1 0x" + "00" * 40_971, "forecast CAPS: not a message"),
]

# A payment with one field wrong.
PAID = payment(stake(1))
WRONG_LINES += [(with_field(PAID, at, field), named(PAID, at, what)) for at, field, what in (
    (1, "x", NUMBER), (1, "none", NUMBER), (2, "none", KEY), (2, A.hex()[1:], KEY), (2, A.hex() + "0", KEY), (2, "g" + A.hex()[1:], KEY), (2, "1", KEY),
    (2, "0x" + A.hex(), KEY), (3, "none", KEY), (3, "-", KEY), (4, "-1", NUMBER), (5, "18446744073709551616", LARGE), (6, "None", KEY), (6, "-", KEY), (6, STAKE.hex()[2:], KEY),
    (7, "none", NUMBER), (7, "18446744073709551616", LARGE), (8, "none", NUMBER), (8, "2,", NUMBER), (8, "2,,1", NUMBER),
    (8, "2,18446744073709551616", LARGE), (8, "0," * 2_312 + "x", NUMBER), (8, "0," * 2_312, NUMBER), (8, "0," * 2_312 + "0x1", KEY),
    *((8, "2,1,0,0,0," + item, KEY) for item in NO_KEYS))]

# Fields missing from each place on, and one too many.
WHOLE_LINES = ["new 1 1", "settings 1 2", "load a", "save a", "fresh 1", "advance 10 10000 0 1 -", "forecast 10 10000 0 1 -", PAID]
WRONG_LINES += cut_or_longer(WHOLE_LINES)

# What is not looked at behind a list, and behind a message.
BEHIND = ["", ",", ",0", ",x", ",,", ",0x", ",18446744073709551616", "," + ITEM, ",0" * 100_000]
BEHIND_DIGITS = BEHIND + ["0", "00", "g", "-", "f" * 49_127, "f" * 49_128, "f" * 300_000]


def with_rest(line, answer, behind=BEHIND):
    """A line whose last field is as long as it is kept, with anything behind that: the same answer each time."""
    return Case("new 1 1\nfresh 10\n" + "".join(f"{line}{more}\n" for more in behind), FRESH + [answer] * len(behind))



CASES = [
    # spaces, comments, leading zeros, digits in either case; no newline at the end
    Case("\n   \n# a comment\n   # another\n  new   1    1  \n  fresh 00000000000000000000000010\nadvance 010 010000 0 01 " + ONE_ROW + "\nnonzero",
         FRESH + ["ok 10000 0 0 1 0", f"ok 0:10 2:{0xab} 5:{0xcd << 56} 14:9 15:10000 26:1"]),
    # before the first `new`
    Case(f"image\nnonzero\nfresh 10\nadvance 10 10000 0 1 {NO_ROWS}\nforecast 10 10000 0 1 {NO_ROWS}\nimage 1,2,3\nfresh 10\nimage\n{payment()}\n",
         ["ok", "ok", "refused 1", "refused 1", "refused 1", "ok 3", "refused 1", "ok 1 2 3", "refused 1"]),
    # settings outlive `new`; an image does not
    Case("new 1 1\nsettings 1 1\nfresh 9\nnew 1 1\nimage\nfresh 9\nadvance 9 0 0 1 0200000000000000090000\n",
         ["ok 29", "ok", "ok", "ok 29", "ok" + " 0" * 29, "ok", "ok 0 0 0 0 0"]),
    # a carriage return at a line's end and at the input's, one of them
    Case("\r\n  \r\n# a comment\r\nnew 1 1\r\nfresh 10 \r\nimage\r\nimage 1,2\r\nimage -\r\nadvance 10 10000 0 1 -\r\nhelp fee\r\nnonzero\r",
         FRESH + ["ok 9" + " 0" * 28, "ok 2", "ok 0", "refused 1", "ok 2\n  fee FEE\n  answer: no value", "ok"]),
    # of an image one word more is kept than the largest has, of a message one byte, of positions nine words; what is behind them is not looked at
    Case("image " + "0," * (LARGEST - 1) + "7\nnonzero\nimage -\nimage\n", [f"ok {LARGEST}", f"ok {LARGEST - 1}:7", "ok 0", "ok"]),
    Case("new 1024 52\nimage " + "0," * LARGEST + "7\nnonzero\nfresh 10\nsave pool\nshow\n",
         [f"ok {LARGEST}", f"ok {LARGEST + 1}", f"ok {LARGEST}:7", "refused 1", "refused 1", "refused 1"], {}, {"pool": None}),
    with_rest("image " + "0," * LARGEST + "7", f"ok {LARGEST + 1}"),
    Case("image " + "0," * LARGEST + "7,8,x\nnonzero\n", [f"ok {LARGEST + 1}", f"ok {LARGEST}:7"]),
    Case("new 1 1\nfresh 10\nadvance 10 10000 0 1 " + "00" * 40_972 + "\nadvance 10 10000 0 1 " + NO_ROWS.ljust(2 * 40_971, "f") + "\n",
         FRESH + ["refused 3", "ok 10000 0 0 0 0"]),
    with_rest("forecast 10 10000 0 1 " + NO_ROWS.ljust(81_944, "f"), "refused 3", BEHIND_DIGITS),
    Case(f"forecast 10 10000 0 1 {NO_ROWS.ljust(200_000, 'f')}\nnew 1 1\nforecast 10 10001 0 0 {NO_ROWS.ljust(81_945, 'f')}\nsettings 0 1\nadvance 10 0 0 1 {'0' * 90_001}\n",
         ["refused 1", "ok 29", "refused 3", "ok", "refused 2"]),
    Case("new 1 1\nfresh 10\n" + payment(words=[0] * 2_313) + "\n" + payment(words=[0] * 2_304) + "\n", FRESH + ["refused 4", "refused 11"]),
    with_rest(payment(words=[0] * 2_313), "refused 4"),
    # keys in either case
    Case("new 1 4\nimage " + ",".join(map(str, pool(keys=[b"\xab" * 32]))) + "\n" + payment(publisher=b"\xab" * 32).replace("ab", "aB") + "\n",
         ["ok 65", "ok 65", "ok 0 0 10 3 0 0"]),
    # a key as an item of a list is its four words; of one that the room ends in the first are kept
    Case(f"image 0x{DIGITS}\nimage\nimage 9,0x{DIGITS.upper()},0x{'0' * 64},007\nimage\n", ["ok 4", "ok " + FOUR.replace(",", " "), "ok 10", f"ok 9 {FOUR.replace(',', ' ')} 0 0 0 0 7"]),
    Case("new 1 4\nimage " + ",".join(map(str, pool())).replace("1,0,0,0", "0x" + A.hex(), 1) + "\nnonzero\n" + "".join(
        with_field(PAID, 8, f"{first}{key},{behind}") + "\n" for key in ("1,0,0,0", "0x" + A.hex()) for first, behind in (
            ("2,1000000,0,0,0,", "0,0,0,0,0,0x" + DIGITS), ("1,1000000,0,0,0,", "2,1000000,8,0,0,0x" + A.hex()))),
         ["ok 65", "ok 65", f"ok 0:10 1:{M} 2:1 10:7 " + " ".join(f"{14 + 12 * slot}:{6 + slot} {15 + 12 * slot}:10000 {23 + 12 * slot}:{M} {24 + 12 * slot}:500000 {25 + 12 * slot}:200000"
                                                                  for slot in range(4)) + " 62:4"] + ["ok 16000 4000 10 3 4 20000", "ok 8000 2000 10 3 4 10000"] * 2),
    *(Case(f"image {'0,' * (LARGEST + 1 - words)}0x{DIGITS},x\nnonzero\n",
           [f"ok {LARGEST + 1}", "ok " + " ".join(f"{LARGEST + 1 - words + at}:{word}" for at, word in enumerate(FOUR.split(",")[:words]))]) for words in (1, 2, 3, 4)),
    *(Case("state 8 " + "0," * (2_313 - words) + f"0x{DIGITS},x\n", ["refused 4"]) for words in (1, 2, 3, 4)),
    # help, and the run's end: what is behind it is not read
    Case("help quit\n  help   payment \nhelp image\nquit\nnonzero\nwrong\n", [
        "ok 2\n  quit\n  answer: no value; the run ends",
        "ok 2\n  payment NOW PUBLISHER ACCOUNT RECORD_EPOCH NEXT_INDEX PUBLISHER_ACCOUNT CUSTODY_FLAG POSITIONS\n"
        "  answer: delegator's part, publisher's part, record's epoch, next index, read count, custody's fall",
        "ok 2\n  image WORDS\n  answer: every word of the image; with WORDS its length", "ok"]),
    Case("  quit  \r\n\x00", ["ok"]), Case("quit", ["ok"]), Case("new 1 1\nsave pool\nquit\nsave other\n", ["ok 29", "ok 29", "ok"], {}, {"pool": bytes(8 * 29), "other": None}),
    # files
    Case("new 1 1\nfresh 10\nsave pool\nimage -\nload pool\nnonzero\n", FRESH + ["ok 29", "ok 0", "ok 29", "ok 0:9"],
         {"pool": b"another"}, {"pool": little_endian([9] + 28 * [0]), "pool.new": None}),
    Case("new 1 1\nload three\nfresh 10\nimage\nsave four\nload none\nimage\n",
         ["ok 29", "ok 3", "refused 1", f"ok 1 2 {model.WORD - 1}", "refused 1", "ok 0", "ok"],
         {"three": little_endian([1, 2, model.WORD - 1]), "none": b""}, {"four": None}),
    # a save of what the calls refuse with 1 touches no file, whatever its name is
    *(Case(f"{lines}save pool\nsave missing/pool\nsave .\nload pool\n", answers + ["refused 1"] * 3 + ["ok 1"], {"pool": bytes(8)}, {"pool": bytes(8)}) for lines, answers in (
        ("", []), ("new 1025 52\n", ["ok 0"]), ("new 1 53\n", ["ok 0"]), ("new 1 1\nimage 1,2,3\n", ["ok 29", "ok 3"]), ("new 1 1\nimage -\n", ["ok 29", "ok 0"]),
        ("new 1 1\nimage " + ",".join(map(str, [0] * 26 + [HALF, 0, 0])) + "\n", ["ok 29", "ok 29"]), ("new 0 0\nimage 0,0,0\n", ["ok 0", "ok 3"]))),
    Case("new 1 1\nimage " + ",".join(map(str, [0] * 26 + [HALF - 1, 0, 0])) + "\nsave pool\n", ["ok 29"] * 3, {}, {"pool": little_endian([0] * 26 + [HALF - 1, 0, 0])}),
    # a load goes as far as an image is kept; a file that ends within a word is refused, and the image stays
    Case("load full\nnonzero\n", [f"ok {LARGEST}", f"ok {LARGEST - 1}:5"], {"full": little_endian([0] * (LARGEST - 1) + [5])}),
    *(Case("new 1024 52\nload long\nnonzero\nfresh 10\n", [f"ok {LARGEST}", f"ok {LARGEST + 1}", f"ok {LARGEST}:5", "refused 1"],
           {"long": little_endian([0] * LARGEST + [5]) + more}) for more in (b"", b"1", b"12345678", bytes(10**6))),
    *(Case("new 1 1\nfresh 10\nload bytes\nnonzero\nfresh 9\n", FRESH + ["refused 1", "ok 0:9", "ok"], {"bytes": bytes([7]) * length})
      for length in (1, 7, 9, 8 * 29 - 1, 8 * 29 + 1, 8 * LARGEST + 1, 8 * LARGEST + 7)),
    # a run that ends with a wrong line leaves the files as they are
    Case("new 1 1\nsave pool\nfresh 10\nwrong\nsave pool\n", ["ok 29", "ok 29", "ok", "line 4: an unknown call"], {}, {"pool": bytes(8 * 29)}),
] + [wrong(*both) for both in WRONG_LINES]


# Payments. Unless a case says otherwise: P 1, E 4, last epoch and now 10, events of epochs 9, 8, 7, 6, claimable M; y 10,000, self ratio M,
# other ratio 500,000, fee 200,000, so that 1,000,000 in an event earns 4,000 and 1,000, or 10,000 on the self side. Unlocking length 1.

def paying(says, *steps, settings=(604_800, 1), p=1, e=4, listed=False):
    """A step is an image's words, or a line and its answer."""
    lines, answers = [f"settings {settings[0]} {settings[1]}", f"new {p} {e}"], ["ok", f"ok {model.length(p, e)}"]
    for step in steps:
        line, answer = step if isinstance(step, tuple) else ("image " + (",".join(map(str, step)) or "-"), f"ok {len(step)}")
        lines.append(line)
        answers.append(answer)
    return Case("\n".join(lines) + "\n", answers, says=says, listed=listed)


ONE = stake(1_000_000)
VOTING, EMPTY = stake(1_000_000, kind=1), stake(1_000_000, kind=0)
SMALL = (9, 10_000, [(M, 100, 200_000)])      # an event with a rate of 1 on the other side: 2^64 - 1 earns 14,757,395,258,968 and 3,689,348,814,741
WHOLE = WORD - 1


def itself(fee=0, epoch=9, y=M):
    """An event in which an amount earns itself, at y 2M twice that."""
    return epoch, y, [(M, M, fee)]


SENTENCES = [
    paying("For each with this publisher", pool(),
           (payment(ONE, epoch=9), "ok 4000 1000 10 3 2 5000"),
           (payment(stake(1_000_000, key=B), VOTING, EMPTY, ONE, stake(1_000_000, key=ZERO_KEY), epoch=9), "ok 4000 1000 10 3 2 5000"),
           (payment(ONE, VOTING, ONE, EMPTY, epoch=9), "ok 8000 2000 10 3 4 10000"),
           (payment(stake(1_000_000, key=last_byte(A)), epoch=9), "ok 0 0 10 3 0 0"),
           (payment(epoch=9), "ok 0 0 10 3 0 0"),
           (payment(*[EMPTY] * 255, ONE, epoch=9), "ok 4000 1000 10 3 2 5000"),
           (payment(*[stake(1)] * 256, epoch=9), "ok 1 0 10 3 512 1")),
    paying("the walk reads the newest events back, at most E",
           pool(), (payment(ONE), "ok 16000 4000 10 3 4 20000"),
           pool(n=5), (payment(ONE), "ok 16000 4000 10 3 4 20000"),
           pool(n=HALF - 1), (payment(ONE), "ok 16000 4000 10 3 4 20000"),
           pool([(9, 10_000, [SHARE]), (8, 20_000, [SHARE]), (7, 40_000, [SHARE]), (6, 80_000, [SHARE])], n=6),
           (payment(ONE, epoch=8), "ok 12000 3000 10 3 3 15000"),
           pool([9, 8, 7], unread=WHOLE), (payment(ONE), "ok 12000 3000 10 3 3 15000"),
           pool([9], unread=WHOLE), (payment(ONE), "ok 4000 1000 10 3 1 5000"),
           pool([], unread=WHOLE), (payment(ONE), "ok 0 0 10 3 0 0"), (payment(), "ok 0 0 10 3 0 0")),
    paying("and stops after one older than the record's epoch", pool(),
           (payment(ONE, epoch=6), "ok 16000 4000 10 3 4 20000"),
           (payment(ONE, epoch=7), "ok 12000 3000 10 3 4 15000"),
           (payment(ONE, epoch=8), "ok 8000 2000 10 3 3 10000"),
           (payment(ONE, epoch=9), "ok 4000 1000 10 3 2 5000"),
           (payment(ONE, epoch=10), "ok 0 0 10 3 1 0"),
           (payment(ONE, ONE, epoch=WHOLE), "ok 0 0 10 3 2 0"),
           pool([9, 5, 8, 7]),
           (payment(ONE, epoch=6), "ok 4000 1000 10 3 2 5000"),
           (payment(ONE, epoch=5), "ok 16000 4000 10 3 4 20000"),
           pool([5, 9, 8, 7]),
           (payment(ONE, epoch=6), "ok 0 0 10 3 1 0"),
           pool([9, 9, 9, WHOLE]),
           (payment(ONE, epoch=9), "ok 16000 4000 10 3 4 20000")),
    paying("LOCKED and PREUNLOCKING add", pool(),
           (payment(stake(1_000_000, 10)), "ok 0 0 10 3 4 0"),
           (payment(stake(1_000_000, 9)), "ok 4000 1000 10 3 4 5000"),
           (payment(stake(1_000_000, 8)), "ok 8000 2000 10 3 4 10000"),
           (payment(stake(1_000_000, 5, 10)), "ok 16000 4000 10 3 4 20000"),
           (payment(stake(1_000_000, 5, 9)), "ok 12000 3000 10 3 4 15000"),
           (payment(stake(1_000_000, 5, 8)), "ok 8000 2000 10 3 4 10000"),
           (payment(stake(1_000_000, 7, 8)), "ok 4000 1000 10 3 4 5000"),
           (payment(stake(1_000_000, 5, 3)), "ok 0 0 10 3 4 0"),
           (payment(stake(1_000_000, 8, 8)), "ok 0 0 10 3 4 0"),
           (payment(stake(1_000_000, 9, 7)), "ok 0 0 10 3 4 0"),
           (payment(ONE[:4] + [7] + ONE[5:]), "ok 16000 4000 10 3 4 20000"),
           (payment(ONE[:4] + [WHOLE] + ONE[5:]), "ok 16000 4000 10 3 4 20000")),
    paying("PREUNLOCKING adds whatever the unlocking length", pool(),
           (payment(stake(1_000_000, 5, 9)), "ok 12000 3000 10 3 4 15000"), (payment(stake(1_000_000, 5, 6)), "ok 0 0 10 3 4 0"), settings=(604_800, 0)),
    paying("Amounts gather per ring slot before any reward is worked out", pool(),
           (payment(stake(199), epoch=9), "ok 0 0 10 3 2 0"),
           (payment(stake(200), epoch=9), "ok 1 0 10 3 2 1"),
           (payment(stake(199), stake(1), epoch=9), "ok 1 0 10 3 4 1"),
           (payment(stake(199, 9), stake(1, 0, 9)), "ok 0 0 10 3 8 0"),
           (payment(stake(199, 9), stake(1)), "ok 1 0 10 3 8 1")),
    paying("rounding down: the rate, the total, the publisher's part",
           pool([(9, 9_999, [(M, 999_999, 333_333)])]),
           (payment(stake(1_000_000)), "ok 6666 3332 10 3 1 9998"),
           (payment(stake(1_000_100)), "ok 6666 3332 10 3 1 9998"),
           (payment(stake(1_000_101)), "ok 6667 3332 10 3 1 9999")),
    paying("Custody falls by both with a key, by the delegator's alone with none", pool(stakes=[]),
           (payment(ONE, other=None, epoch=9), "ok 4000 1000 10 3 2 4000"),
           (payment(ONE, other=None, flag=0, epoch=9), "ok 4000 1000 10 3 2 4000"),
           (payment(ONE, other=ZERO_KEY, epoch=9), "ok 4000 1000 10 3 2 5000"),
           pool([(9, 10_000, [(M, 500_000, M)])], stakes=[]),
           (payment(ONE, other=None), "ok 0 5000 10 3 1 0"), (payment(ONE, other=ZERO_KEY), "ok 0 5000 10 3 1 5000")),
    paying("Both parts leave claimable", pool([9], claimable=5_001),
           (payment(ONE), "ok 4000 1000 10 3 1 5000"), ("nonzero", f"ok 0:10 1:1 2:1 10:7 14:9 15:10000 23:{M} 24:500000 25:200000 62:1"),
           pool([9], claimable=5_001, stakes=[]),
           (payment(ONE, other=None, flag=0), "ok 4000 1000 10 3 1 4000"), ("nonzero", f"ok 0:10 1:1 2:1 14:9 15:10000 23:{M} 24:500000 25:200000 62:1")),
    paying("The publisher account is a key or none", pool(),
           (payment(other=STAKE, flag=1), "ok 0 0 10 3 0 0"),
           (payment(other=STAKE, flag=WHOLE), "ok 0 0 10 3 0 0"),
           (payment(other=STAKE, flag=0), "refused 18"),
           (payment(other=last_byte(STAKE), flag=1), "refused 17"),
           (payment(other=last_byte(STAKE), flag=0), "refused 17"),
           (payment(other=ZERO_KEY, flag=1), "refused 17"),
           (payment(other=None, flag=1), "refused 17"),
           (payment(other=None, flag=0), "refused 17")),
    paying("none counting as zero", pool(stakes=[]),
           (payment(other=None, flag=0), "ok 0 0 10 3 0 0"),
           (payment(other=None, flag=1), "ok 0 0 10 3 0 0"),
           (payment(other=ZERO_KEY, flag=1), "ok 0 0 10 3 0 0"),
           (payment(other=ZERO_KEY, flag=0), "refused 18"),
           (payment(other=STAKE, flag=1), "refused 17")),
    paying("An accepted payment moves the staker's record to the current epoch", pool(last=WHOLE),
           (payment(ONE, now=WHOLE, epoch=9, index=0), f"ok 4000 1000 {WHOLE} 0 2 5000"),
           (payment(ONE, now=WHOLE, epoch=WHOLE, index=WHOLE), f"ok 0 0 {WHOLE} {WHOLE} 1 0")),
    paying("Self side: the account key equals the seat's stake account key, both zero included", pool(),
           (payment(ONE, account=STAKE, epoch=9), "ok 10000 0 10 3 2 10000"),
           (payment(ONE, account=last_byte(STAKE), epoch=9), "ok 4000 1000 10 3 2 5000"),
           (payment(ONE, account=ZERO_KEY, epoch=9), "ok 4000 1000 10 3 2 5000"),
           (payment(ONE, account=A, epoch=9), "ok 4000 1000 10 3 2 5000"),
           pool(stakes=[]),
           (payment(ONE, account=ZERO_KEY, other=None, epoch=9), "ok 10000 0 10 3 2 10000"),
           (payment(ONE, account=STAKE, other=None, epoch=9), "ok 4000 1000 10 3 2 4000"),
           pool([(9, 10_000, [(M, 500_000, WHOLE)])]), (payment(ONE, account=STAKE), "ok 10000 0 10 3 1 10000")),
    paying("A publisher is looked up over all P seats, first match",
           pool([9], p=4, keys=[A, ZERO_KEY, B, B], stakes=[ZERO_KEY, ZERO_KEY, STAKE, C], shares=[(M, 0, 0), (M, M, 0), (M, 400_000, M), (M, M, 0)]),
           (payment(stake(1_000_000, key=B), publisher=B), "ok 0 4000 10 3 1 4000"),
           (payment(ONE, other=None), "ok 0 0 10 3 1 0"),
           (payment(stake(1_000_000, key=C), publisher=C), "refused 11"), p=4),
]

REFUSED = [
    paying("1: P, E, the image's length, n",
           pool()[:-1], (payment(ONE), "refused 1"),
           pool() + [0], (payment(words=[3]), "refused 1"),
           pool(n=HALF), (payment(now=9), "refused 1"),
           pool(n=WHOLE), (payment(publisher=ZERO_KEY), "refused 1"),
           pool(n=HALF - 1), (payment(), "ok 0 0 10 3 0 0"),
           ("new 1 53", "ok 0"), pool(), (payment(), "refused 1"),
           ("new 0 4", "ok 0"), (payment(), "refused 1")),
    paying("4: not whole nines, over 256, kind, flag", pool(),
           (payment(words=ONE[:-1]), "refused 4"),
           (payment(words=ONE + [0]), "refused 4"),
           (payment(words=[2]), "refused 4"),
           (payment(*[EMPTY] * 257), "refused 4"),
           (payment(*[EMPTY] * 256), "ok 0 0 10 3 0 0"),
           (payment([3] + ONE[1:]), "refused 4"),
           (payment(EMPTY, [WHOLE] + ONE[1:]), "refused 4"),
           (payment(ONE[:3] + [2] + ONE[4:]), "refused 4"),
           (payment(ONE, VOTING[:3] + [2] + VOTING[4:]), "refused 4"),
           (payment([0] + [WHOLE] * 8), "ok 0 0 10 3 0 0")),
    paying("10 and 11", pool(),
           (payment(publisher=ZERO_KEY), "refused 10"),
           (payment(publisher=last_byte(A)), "refused 11"),
           (payment(publisher=B), "refused 11"),
           pool(keys=[]), (payment(publisher=ZERO_KEY), "refused 10"), (payment(), "refused 11"),
           pool(keys=[last_byte(ZERO_KEY)]), (payment(publisher=last_byte(ZERO_KEY)), "ok 0 0 10 3 0 0")),
    paying("12", pool(), (payment(now=9), "refused 12"), (payment(now=11), "refused 12"), (payment(now=10), "ok 0 0 10 3 0 0")),
    paying("13: a slot's amount", pool([SMALL], claimable=WHOLE),
           (payment(stake(WHOLE)), "ok 14757395258968 3689348814741 10 3 1 18446744073709"),
           (payment(stake(WHOLE - 1), stake(1)), "ok 14757395258968 3689348814741 10 3 2 18446744073709"),
           (payment(stake(WHOLE), stake(1)), "refused 13"),
           (payment(stake(HALF), stake(HALF)), "refused 13"),
           (payment(stake(WHOLE), stake(1, 10)), "ok 14757395258968 3689348814741 10 3 2 18446744073709"),
           (payment(stake(WHOLE), stake(0), stake(1, kind=1)), "ok 14757395258968 3689348814741 10 3 2 18446744073709"),
           pool([SMALL, (8,) + SMALL[1:]], claimable=WHOLE),
           (payment(stake(WHOLE, 9), stake(WHOLE, 0, 9)), "ok 29514790517936 7378697629482 10 3 4 36893488147418"),
           (payment(stake(WHOLE, 9), stake(WHOLE, 0, 10)), "refused 13")),
    paying("13: a start whose end doesn't fit, once activated", pool(),
           (payment(stake(1_000_000, 0, WHOLE - 1), epoch=9), "ok 4000 1000 10 3 2 5000"),
           (payment(stake(1_000_000, 0, WHOLE), epoch=9), "refused 13"),
           (payment(stake(0, 0, WHOLE), epoch=9), "refused 13"),
           (payment(stake(0, 9, WHOLE), epoch=9), "refused 13"),
           (payment(stake(0, 10, WHOLE), epoch=9), "ok 0 0 10 3 2 0"),
           (payment(stake(1, 0, WHOLE), epoch=10), "ok 0 0 10 3 1 0"),
           (payment(stake(1, 0, WHOLE, kind=1), stake(1, 0, WHOLE, key=B), epoch=9), "ok 0 0 10 3 0 0"),
           pool([6, 5, 9]),
           (payment(stake(1, 7, WHOLE), epoch=6), "ok 0 0 10 3 2 0"),
           (payment(stake(1, 7, WHOLE), epoch=5), "refused 13")),
    paying("13: the same with the longest unlocking length", pool(),
           (payment(stake(1_000_000, 0, 0)), "ok 0 0 10 3 4 0"), (payment(stake(1_000_000, 0, 1)), "refused 13"), settings=(604_800, WHOLE)),
    paying("13: with an unlocking length of 0 every end fits", pool(),
           (payment(stake(1_000_000, 0, WHOLE)), "ok 16000 4000 10 3 4 20000"), settings=(604_800, 0)),
    paying("13: a total", pool([itself(y=2 * M)], claimable=WHOLE),
           (payment(stake(HALF - 1)), f"ok {WHOLE - 1} 0 10 3 1 {WHOLE - 1}"),
           (payment(stake(HALF)), "refused 13"),
           (payment(stake(HALF), account=STAKE), "refused 13"),
           pool([itself(M // 2, y=2 * M)], claimable=WHOLE), (payment(stake(HALF)), "refused 13")),
    paying("13: both parts together, ahead of 16", pool([itself(), itself(epoch=8)], claimable=WHOLE),
           (payment(stake(HALF - 1), stake(1, 9)), f"ok {WHOLE} 0 10 3 4 {WHOLE}"),
           pool([itself(), itself(epoch=8)], claimable=WHOLE - 1),
           (payment(stake(HALF - 1), stake(1, 9)), "refused 16"),
           (payment(stake(HALF - 1), stake(2, 9)), "refused 13"),
           pool([itself(M // 2), itself(M // 2, epoch=8)], claimable=WHOLE),
           (payment(stake(HALF)), "refused 13"),
           (payment(stake(HALF - 1)), f"ok {HALF} {HALF - 2} 10 3 2 {WORD - 2}")),
    paying("13: a publisher's part above the total",
           pool([itself(M)], claimable=WHOLE),
           (payment(stake(WHOLE)), f"ok 0 {WHOLE} 10 3 1 {WHOLE}"),
           pool([itself(M + 1)], claimable=WHOLE),
           (payment(stake(M - 1)), f"ok 0 {M - 1} 10 3 1 {M - 1}"),
           (payment(stake(M)), "refused 13"),
           (payment(stake(M), account=STAKE), f"ok {M} 0 10 3 1 {M}"),
           (payment(stake(0)), "ok 0 0 10 3 1 0"),
           pool([itself(WHOLE)], claimable=WHOLE),
           (payment(stake(WHOLE)), "refused 13")),
    paying("13: a rate that just fits; one that doesn't, where nothing is staked",
           pool([(9, M, [(0, WHOLE, 0)])], claimable=WHOLE),
           (payment(stake(1)), "ok 18446744073709 0 10 3 1 18446744073709"),
           (payment(stake(0)), "ok 0 0 10 3 1 0"),
           pool([(9, WHOLE, [(WHOLE, WHOLE, 0)])]),
           (payment(stake(0)), "ok 0 0 10 3 1 0"),
           (payment(stake(1, 10)), "ok 0 0 10 3 1 0")),
    paying("13: a rate past 64 bits",
           pool([(9, M + 1, [(0, WHOLE, 0)])], claimable=WHOLE),
           (payment(stake(1)), "refused 13"),
           (payment(stake(1), flag=0), "refused 13"),
           (payment(stake(1), account=STAKE), "ok 0 0 10 3 1 0"),
           pool([(9, 5**6 * 2**38, [(2**32, 0, 0)])]),
           (payment(stake(1), account=STAKE), "refused 13"),
           ("nonzero", f"ok 0:10 1:{M} 2:1 10:7 14:9 15:{5**6 * 2**38} 23:{2**32} 62:1"), listed=True),
    paying("16, ahead of 17 and 18",
           pool([9], claimable=4_999),
           (payment(ONE), "refused 16"),
           (payment(ONE, other=None, flag=0), "refused 16"),
           (payment(ONE, flag=0), "refused 16"),
           pool([9], claimable=5_000),
           (payment(ONE, flag=0), "refused 18"),
           (payment(ONE, other=None), "refused 17"),
           (payment(ONE), "ok 4000 1000 10 3 1 5000"),
           (payment(stake(200)), "refused 16"),
           (payment(stake(199)), "ok 0 0 10 3 1 0")),
    paying("in document 01's order: all faults at once, mended one by one",
           pool([SMALL], claimable=0)[:-1],
           (payment(words=[3], publisher=ZERO_KEY, now=9, other=None, flag=0), "refused 1"),
           pool([SMALL], claimable=0),
           (payment(words=[3], publisher=ZERO_KEY, now=9, other=None, flag=0), "refused 4"),
           (payment(stake(WHOLE), ONE, publisher=ZERO_KEY, now=9, other=None, flag=0), "refused 10"),
           (payment(stake(WHOLE), ONE, publisher=B, now=9, other=None, flag=0), "refused 11"),
           (payment(stake(WHOLE), ONE, now=9, other=None, flag=0), "refused 12"),
           (payment(stake(WHOLE), ONE, other=B, flag=0), "refused 13"),
           (payment(ONE, other=B, flag=0), "refused 16"),
           pool([SMALL], claimable=1),
           (payment(ONE, other=B, flag=0), "refused 17"),
           (payment(ONE, flag=0), "refused 18"),
           ("nonzero", f"ok 0:10 1:1 2:1 10:7 14:9 15:10000 23:{M} 24:100 25:200000 62:1"),
           (payment(ONE), "ok 1 0 10 3 1 1")),
]

PAYMENTS = SENTENCES + REFUSED

# Each line's answer must be there before the next is given.
ONE_BY_ONE = [("new 1 1", "ok 29"), ("# a comment", None), ("fresh 10", "ok"), ("nonzero", "ok 0:9"), (f"forecast 10 10000 0 1 {NO_ROWS}", "ok 0")]
