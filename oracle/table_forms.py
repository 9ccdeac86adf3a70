"""The table's group with the journal's forms."""
import forms
from by_hand import A, ACCOUNT, B, STAKE, payment, pool, seats, stake, stake_account
from cases import DIGITS, FOUR, NO_ROWS, with_field
from image import IMAGE_ROOM, MESSAGE_ROOM, POSITIONS_ROOM, WEIGHTS_ROOM
from model import ZERO_KEY
from states import line as state


def keyed(words, upper=False):
    """Positions with each key as one item."""
    nines = [words[at:at + 9] for at in range(0, len(words), 9)]
    keys = [b"".join(word.to_bytes(8, "little") for word in nine[5:]).hex() for nine in nines]
    return ",".join(",".join([*map(str, nine[:5]), "0x" + (key.upper() if upper else key)]) for nine, key in zip(nines, keys))


def helped(t):
    """Every call with its fields, and of each what it answers."""
    t.say("help")
    for name in forms.HELP:
        t.say(f"help {name}")


def carriage_returns(t):
    """One at a line's end is passed over."""
    t.say("new 2 4\r")
    t.passed_over("\r")
    t.passed_over("   \r")
    t.passed_over("# a comment\r")
    for text in ("  fresh   10  \r", "nonzero\r", f"advance 10 10000 0 1 {NO_ROWS}\r", "image 1,2,3\r", "image -  \r", "image\r", "help fee\r", "settings 604800 1\r", state(8, stake(1, 5, 8)) + "\r"):
        t.say(text)


def keys_in_lists(t):
    """An item for a key's four words, its digits in either case; of one that ends beyond what is kept, the first words."""
    for words in (f"0x{DIGITS}", f"7,0x{DIGITS.upper()},0x{'0' * 64},{FOUR},08"):
        t.say(f"image {words}")
        t.say("image")
    t.say("new 1 4")
    t.put(pool())
    for one in ([stake(1_000_000)], [stake(1_000_000, key=B), stake(1_000_000, 8)], [stake(5, kind=0, key=B), stake(199, 9), stake(1, kind=1)]):
        words = [word for nine in one for word in nine]
        t.say(payment(words=words))
        t.say(with_field(payment(), 8, keyed(words)))
        t.say(with_field(payment(account=STAKE), 8, keyed(words, upper=True)))
    for epoch in (4, 5, 8, 9):
        t.say(f"state {epoch} {keyed(stake(1, 5, 8, key=bytes(range(1, 33))))}")
    t.say(f"state 8 2,1,5,1,8,0x{DIGITS},0")
    t.say("new 2 1")
    for place, key in ((6, A), (8, A), (6, B), (8, B)):
        t.put(seats())
        t.say(with_field(stake_account(ACCOUNT, old=STAKE, owner=B, signer=B), place, keyed(stake(1, key=key))))
        t.say("nonzero")
    for words in range(1, 5):
        t.say(f"state 8 {'0,' * (POSITIONS_ROOM - words)}0x{DIGITS}")
        t.say(f"split 8 {'0,' * (WEIGHTS_ROOM - words)}0x{DIGITS}")
    t.say(f"split 8 {'0,' * 60}0x{DIGITS}")


def long_fields(t):
    """One byte or word more than the library accepts is kept, and gets its refusal; what stands behind it is passed over."""
    t.say("new 1 4")
    t.say("fresh 10")
    kept = ",".join(["0"] * POSITIONS_ROOM)
    t.say(with_field(payment(), 8, kept + ","))
    t.say(f"state 8 {kept},18446744073709551616")
    t.say(f"split 8 {'1,' * WEIGHTS_ROOM}x,,0x1")
    t.say(with_field(with_field(stake_account(ACCOUNT, old=STAKE, owner=B), 6, f"{kept},x,,0x1"), 8, f"{kept},0x{DIGITS}"))
    t.say(f"forecast 10 10000 0 1 {NO_ROWS.ljust(2 * MESSAGE_ROOM, 'f')}g-,\x7f")
    t.say(f"forecast 10 10000 0 1 {NO_ROWS}")


def files(t):
    """Files that every system has, as far as an image is kept; images that are not saved, which comes before anything about the path."""
    for name, content in (("null", b""), ("zero", bytes(8 * IMAGE_ROOM))):
        t.file_call(f"load /dev/{name}", f"ok {t.site.load(content)[0]}")
        for text in ("nonzero", "fresh 1", "fee 5", "show"):
            t.say(text)
        t.file_call("save no/such/folder", "refused 1")
    for sizes in ("1025 52", "1 53", "0 1"):
        t.say(f"new {sizes}")
        t.file_call("save no/such/folder", "refused 1")


GROUPS = (helped, carriage_returns, keys_in_lists, long_fields, files)


def all_forms(t):
    """The journal's forms: help, carriage returns, keys in word lists, fields longer than they are kept, files."""
    for group in GROUPS:
        t.comment(group.__doc__)
        group(t)
    t.say("new 2 4")
    t.say(payment(publisher=ZERO_KEY))
