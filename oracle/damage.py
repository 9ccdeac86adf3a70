"""Damaged journals at random: right ones with bytes, fields and lines changed, lines of any fields, and bytes that were never a journal."""
import glob
import os
import random

import cases
import cases_changes
import cases_split
import cases_state
import forms
import journal
import levels
import spelling
from forms import CALLS, IMAGE_ROOM, ITEM, MESSAGE_ROOM, PATH_ROOM, POSITIONS_ROOM, WEIGHTS_ROOM

ROOT = os.path.dirname(journal.HERE)
SIZES = [(1, 1), (2, 4), (4, 4), (3, 7), (16, 52)]
GENERATED = 40          # journals at random among the right ones
MOST = 60_000           # bytes of a right journal, but for one in fifty
BYTES = b"\0\t\n\r #,-+.09afAFgx\x7f\x80\xc3\xff"
NUMBERS = [0, 1, 2, 10, 52, 53, 1_024, 1_025, 2**63 - 1, 2**63, 2**64 - 1, 2**64, 2**64 + 1, 10**20 - 1, 10**20, 10**25]
NO_NUMBERS = [b"-1", b"+1", b"1.", b"0x1", b"1e3", b"x", b"-", b"--", b"none", b"1,", b"\xc2\xb2", b"1\t", b"1\r", b"\0", b"18446744073709551616x", b"1_0"]
WRONG_LINES = [line.encode() for by_hand in (cases, cases_changes, cases_state, cases_split) for line, _ in by_hand.WRONG_LINES if len(line) < 100_000]
NAMES = b"pool three none odd long short link nowhere folder missing other pool.new a \xff\xfe . .. x\0y".split()
NAMES += [b"n" * length for length in (200, *range(239, 250), 255, 256)]       # up to where the second name gets too long, whatever the process's number
BAD_BYTES = b"gGx-,.\r\t\0\x7f\xff"      # none is a digit


def right_journals(seed):
    """The examples, the oracle's journals without its own lines, and some at random; each as its lines."""
    found = []
    for path in sorted(glob.glob(f"{ROOT}/examples/*.journal") + glob.glob(f"{journal.HERE}/journals/*.journal")):
        with open(path, "rb") as f:
            found.append([line for line in f.read().removesuffix(b"\n").split(b"\n") if not line.startswith((b"leaf", b"bench"))])
    for n in range(GENERATED):
        written = spelling.Spelled(f"{seed} {n}")
        size, calls = (SIZES[n % len(SIZES)], 5 + n) if n % 20 else ((1_024, 52), 3)
        levels.write(written, "operate", f"{seed} {n}", size, (604_800, 1) if n % 3 else (1, 2), calls, long=False)
        found.append(written.text().encode().removesuffix(b"\n").split(b"\n"))
    return found


def within_folder(data):
    """A path that is read or written stays in the run's folder."""
    return b"\n".join(line.replace(b"/", b"_") if line.lstrip(b" ").startswith((b"load", b"save")) else line for line in data.split(b"\n"))


class Damage:
    def __init__(self, seed):
        self.journals = right_journals(seed)
        self.r = random.Random(seed)
        self.care = .7          # how often a field is of its kind

    # Fields.

    def digits(self, count):
        return bytes(self.r.choices(b"0123456789abcdefABCDEF", k=count))

    def number(self):
        if self.r.random() > self.care:
            return self.r.choice(NO_NUMBERS)
        zeros = self.r.choice([0, 0, 0, 0, 1, 20, 64])
        return b"0" * zeros + str(self.r.choice([*(NUMBERS if self.r.random() > self.care else NUMBERS[:11]), self.r.getrandbits(64), self.r.randrange(100)])).encode()

    def key(self):
        if self.r.random() < self.care:
            return self.r.choice([b"01" + b"0" * 62, b"0" * 64, self.digits(64)])
        return self.r.choice([self.digits(63), self.digits(65), self.digits(62), self.digits(128), self.digits(63) + b"g", b"none", b"None", b"-", b"0"])

    def long_message(self):
        """Around what is kept and around what the program holds at once, and longer; at times with a byte that is no digit, in what is kept or behind it."""
        kept = 2 * MESSAGE_ROOM
        length = self.r.choice([kept + self.r.randrange(-2, 5), ITEM + self.r.randrange(-1, 3), 200_000, 300_000 + self.r.randrange(2)])
        text = bytearray((self.digits(64) * (length // 64 + 1))[:length])
        if self.r.random() < .5:
            at = self.r.choice([kept - 2, kept - 1, kept, kept + 1, length - 1, self.r.randrange(kept), self.r.randrange(length)])
            text[at:at + 1] = bytes([self.r.choice(BAD_BYTES)])
        return bytes(text)

    def message(self):
        if self.r.random() < .1:
            return self.long_message()
        return self.r.choice([b"-", b"0", b"--", b"0200000000005c49000000", self.digits(22), self.digits(self.r.randrange(1, 200)), self.digits(30) + b"g0", b"0x" + self.digits(20)])

    def no_key(self):
        """An item that comes close to a key."""
        return self.r.choice([b"0x", b"0X" + self.digits(64), b"0x" + self.digits(self.r.choice([1, 62, 63, 65, 128])), b"0x" + self.digits(63) + b"g", b"0x0x" + self.digits(62),
                              self.digits(64), b"00x" + self.digits(64), b"-0x" + self.digits(64), b"0x" + self.digits(64) + b"\r"])

    def no_item(self):
        return self.r.choice([b"", b"", b"-", b"x", self.number(), self.no_key(), self.no_key(), b"0" * (ITEM + self.r.randrange(2)), b"0x" + b"0" * ITEM])

    def long_list(self, room):
        """Words as far as they are kept, about so many, or far more; at times with a key around the room's end, and with an item that is none around it or anywhere."""
        items = [b"0"] * (room + self.r.choice([-2, -1, 0, 0, 1, 2, 5, room, 70_000]))
        if self.r.random() < .5:
            at = room - self.r.randrange(7)
            items[at:at + 1] = [b"0x" + self.digits(64)]
        if self.r.random() < .5:
            at = self.r.choice([*(max(0, room - near) for near in range(6)), -1, self.r.randrange(len(items))])
            items[at:at + 1 or None] = [self.no_item()]
        return b",".join(items)

    def list(self, room):
        """Around its room, with keys, and with items that are none."""
        if self.r.random() < .1:
            return self.long_list(room)
        items = [str(self.r.choice(NUMBERS[:11])).encode() for _ in range(self.r.choice([0, 1, 2, 9, 18, 29]))]
        for at in range(len(items) - 4, -1, -1):
            if self.r.random() < .1:
                items[at:at + 4] = [b"0x" + self.digits(64)]
        if items and self.r.random() > self.care:
            items[self.r.choice([0, -1, self.r.randrange(len(items))])] = self.r.choice([self.no_item(), b"0x" + self.digits(64)])
        return b",".join(items) or b"-"

    def position(self):
        """Nine words that come close to a position's; its key at times as one item."""
        words = [self.r.choice([0, 1, 2, 2, 2, 3]), *self.r.choices(NUMBERS[:11], k=2), self.r.choice([0, 1, 1, 2]), self.r.choice(NUMBERS[:11])]
        key = [b"0x" + self.digits(64)] if self.r.random() < .4 else [str(n).encode() for n in self.r.choices(NUMBERS[:11], k=4)]
        return b",".join([*(str(word).encode() for word in words), *key])

    def weights(self):
        """Of a sum that fits, up to one more than the library accepts; the last four at times as a key."""
        items = [str(self.r.getrandbits(self.r.choice([1, 8, 57]))).encode() for _ in range(self.r.choice([1, 2, 5, WEIGHTS_ROOM - 1, WEIGHTS_ROOM]))]
        if self.r.random() < .3:
            items[-4:] = [b"0x" + self.digits(64)]
        return b",".join(items)

    def field(self, name):
        """One for a field of this name, right or not."""
        if self.r.random() > self.care + .2:
            name = self.r.choice(["P", "CAPS", "STATE", "PATH", "ACCOUNT", "POSITIONS"])
        if name == "POSITION" and self.r.random() < .7:
            return self.position()
        if name == "WEIGHTS" and self.r.random() < .5:
            return self.weights()
        if name in forms.LISTS:
            return self.list(100 if name == "WORDS" and self.r.random() > .1 else forms.LISTS[name])
        if name == "PATH":
            return self.r.choice([*NAMES, b"p" * self.r.choice([4_095, 4_096, PATH_ROOM, PATH_ROOM + 1])])
        if name == "CALL":
            return self.r.choice([*(call.encode() for call in CALLS), *(call.encode() for call in CALLS), b"x", b"New", b"sho", b"-", b"0", b"help\r", b"\0"])
        if name == "STATE":
            return self.r.choice([b"LOCKED", b"LOCKING", b"UNLOCKED", b"UNLOCKING", b"PREUNLOCKING", b"locked", b"LOCKE", b"LOCKEDX", b"1"])
        if name in forms.KEYS_OR_NONE and self.r.random() < .4:
            return b"none"
        return self.message() if name == "CAPS" else self.key() if name in forms.KEYS + forms.KEYS_OR_NONE else self.number()

    def long_field(self):
        """At the edge of what the program holds at once."""
        length = ITEM + self.r.choice([-1, 0, 1, 2, self.r.randrange(ITEM)])
        return self.r.choice([
            lambda: b"0" * (length - 1) + b"1",
            lambda: b"x" * length,
            lambda: (self.digits(64) * (length // 64 + 1))[:length],
            lambda: b"0x" + b"a" * (length - 2),
            lambda: b"LOCKED" + b"D" * (length - 6),
            lambda: b"," * length,
            lambda: b"1," * (length // 2) + b"1",
            lambda: (b"0x" + self.digits(64) + b",") * (length // 67) + b"1",
        ])()

    def any_line(self):
        """A call's name and fields of its kinds."""
        call = self.r.choice(list(CALLS))
        self.care = self.r.choice([.5, .8, .95, 1])
        return b" ".join([call.encode(), *map(self.field, CALLS[call])])

    # Lines.

    def changed_field(self, line):
        """A call's line with one field changed, most often to one for its place."""
        fields = line.split(b" ")
        at = self.r.randrange(len(fields))
        names = CALLS.get(fields[0].decode("latin-1"), [])
        kind = self.r.randrange(13)
        if kind < 5 and names:
            at = self.r.randrange(len(names))
            fields[at + 1:at + 2] = [self.field(names[at])]
        elif kind == 5:
            del fields[at]
        elif kind == 6:
            fields.insert(at, self.number())
        elif kind == 7:
            other = self.r.randrange(len(fields))
            fields[at], fields[other] = fields[other], fields[at]
        elif kind == 8:
            del fields[at + 1:]
        elif kind == 9:
            fields[at] = self.r.choice([fields[at].upper(), b"0" + fields[at], fields[at][:-1], fields[at] + b",", fields[at] + b"0"])
        elif kind == 10:
            fields[at] = b" " * self.r.randrange(1, 9) + fields[at] + b" " * self.r.randrange(9)
        elif kind == 11:
            fields[at] = self.r.choice([fields[at] + b"\r", b"\r" + fields[at], fields[at][:3] + b"\r" + fields[at][3:], b"0x" + fields[at], fields[at].replace(b"0x", b"", 1)])
        elif self.r.random() < .25:
            fields[at] = self.long_field()
        else:
            fields.append(self.r.choice([b"0", b"-", b"#", b"\r", b"\t"]))
        return b" ".join(fields)

    def rare_line(self):
        """One that chance alone would seldom bring: rooms, files, accounts with and without what belongs to them."""
        keys = [self.r.choice([b"none", b"01" + b"0" * 62]) for _ in range(3)]
        lists = [self.r.choice([b"-", b"-", b"0"]) for _ in range(2)]
        more = self.r.choice([0, 1])
        return self.r.choice([
            *[lambda: self.r.choice([b"forecast 1 1 1 1 ", b"advance 10 10000 0 1 "]) + self.long_message() + self.r.choice([b"", b"", b"\r", b" \r", b" 0"])] * 3,
            *[lambda: b" ".join([b"stake-account", *[self.digits(64)] * 3, *keys[:2], lists[0], keys[2], lists[1]])] * 3,
            lambda: b" ".join([b"stake-account", *[self.digits(64)] * 5, self.long_list(POSITIONS_ROOM), self.digits(64), self.long_list(POSITIONS_ROOM)]),
            lambda: b" ".join([b"payment 10", *[self.digits(64)] * 2, b"0 0 none 0", self.long_list(POSITIONS_ROOM)]),
            lambda: b"load " + self.r.choice([b"odd", b"long", b"short", b"link"]),
            lambda: self.r.choice([b"load ", b"save "]) + b"p" * (PATH_ROOM + more),
            lambda: b"image " + self.long_list(IMAGE_ROOM),
            lambda: b"remove 1 " + b" ".join([self.digits(64), self.digits(64), b"1", self.field("STATE")]),
            lambda: b"image " + self.long_field(),
            lambda: b" ".join([b"state", self.number(), self.position()]),
            lambda: b"state 1 " + self.long_list(POSITIONS_ROOM),
            lambda: b" ".join([b"split", self.number(), self.weights()]),
            lambda: b"split 1 " + self.long_list(WEIGHTS_ROOM),
            lambda: b"help " + self.field("CALL"),
            lambda: self.r.choice([b"load ", b"save ", b"fresh ", b"fee ", b"help ", b"remove 1 ", b"state ", b"split ", b"split 1 ",
                                   b"remove 1 %s %s 1 " % (self.digits(64), self.digits(64))]) + self.long_field() + self.r.choice([b"", b"\r"]),
            lambda: self.long_field() + self.r.choice([b"", b"\r"]),
        ])()

    def other_line(self):
        kind = self.r.randrange(12)
        if kind < 4:
            return self.any_line()
        if kind < 6:
            return self.r.choice([b"save ", b"load "]) + self.field("PATH")
        if kind < 10:
            return self.rare_line()
        return self.r.choice([b"", b"   ", b"# " + self.r.randbytes(20).replace(b"\n", b""), b"#", b"unknown", b"show", b"nonzero", b"NEW 1 1",
                              b"new 1 1\r", b"\tnew 1 1", b"\r", b"  \r", b"\r\r", b"\rnonzero", b"nonzero \r", b"nonzero\r ", b"help", b"help\r", b"quit", b"quit\r", b"quit 1",
                              self.r.choice(WRONG_LINES), b"#" * 140_000, b" " * 140_000 + b"nonzero", b"nonzero" + b" " * 140_000, b"nonzero" + b" " * 140_000 + b"\r"])

    def changed_lines(self, lines):
        at = self.r.randrange(len(lines))
        kind = self.r.randrange(13)
        if kind < 5:
            lines[at] = self.changed_field(lines[at])
        elif kind == 12:
            lines[at] += self.r.choice([b"\r", b"\r", b" \r", b"\r\r", b"\r "])
        elif kind < 8:
            lines.insert(at, self.other_line())
        elif kind == 8:
            lines[at:at + 2] = [self.r.choice([b"", b" ", b"\r", b"\0"]).join(lines[at:at + 2])]
        elif kind == 9:
            lines[at] = lines[at][:self.r.randrange(len(lines[at]) + 1)]
        elif kind == 10:
            lines.insert(at, lines[self.r.randrange(len(lines))])
        else:
            del lines[at]
        return lines or [b""]

    # Bytes.

    def changed_bytes(self, data):
        data = bytearray(data)
        for _ in range(self.r.choice([1, 1, 1, 2, 5, 20])):
            at, kind = self.r.randrange(len(data) + 1), self.r.randrange(6)
            some = self.r.randrange(1, 40)
            if kind == 0 and at < len(data):
                data[at] ^= 1 << self.r.randrange(8)
            elif kind == 1:
                data[at:at + 1] = bytes([self.r.choice(BYTES)])
            elif kind == 2:
                data[at:at] = bytes([self.r.choice(BYTES)]) * self.r.choice([1, 1, 2, some])
            elif kind == 3:
                del data[at:at + self.r.choice([1, 1, some])]
            elif kind == 4:
                data[at:at] = data[at:at + some]
            else:
                data[at:at] = self.r.randbytes(self.r.choice([1, 2, some]))
        return bytes(data)

    # Inputs.

    def right(self):
        """A right journal's lines, as many as come to a handy length."""
        lines = list(self.r.choice(self.journals))
        while sum(map(len, lines)) > MOST and len(lines) > 3 and self.r.random() < .98:
            del lines[len(lines) // 2:]
        return lines

    def random(self):
        kind = self.r.random()
        if kind < .3:
            return self.r.randbytes(self.r.randrange(3_000))
        if kind < .6:
            return bytes(self.r.choices(b"new 1\nimage ,-#0\0", k=self.r.randrange(400)))
        return b"\n".join(self.other_line() for _ in range(self.r.randrange(1, 12)))

    def padded(self, data):
        """Behind a comment or spaces, so that the end of what the program reads at once falls somewhere in it."""
        pad = self.r.choice([1, 1, 2]) * (ITEM + 1) - self.r.randrange(min(len(data), ITEM) + 2)
        return b"#" * (pad - 1) + b"\n" + data if self.r.random() < .7 else b" " * pad + data

    def input(self, seed):
        """An input by its seed, whatever came before it."""
        self.r = random.Random(seed)
        data = self.damaged() if self.r.random() < .88 else self.random()
        return within_folder(self.padded(data) if self.r.random() < .15 else data)

    def damaged(self):
        lines = self.right()
        for _ in range(self.r.choice([0, 1, 1, 1, 2, 4])):
            lines = self.changed_lines(lines)
        ends = self.r.choice([b"\n"] * 30 + [b"\r\n"] * 4 + [b" \n", b"\n\n", b"  \r\n", b"\r\r\n", b"\n\r\n"])
        data = ends.join(lines) + self.r.choice([b"\n", b"\n", b"", b"\r", b"\r\n"])
        if self.r.random() < .35:
            data = self.changed_bytes(data)
        return data
