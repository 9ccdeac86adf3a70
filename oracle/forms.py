"""What a journal of any bytes must be answered, from docs/JOURNAL.md's words: its calls and fields, what `help` says and what may be wrong are
read from the tables there, the values of calls are the model's. A line is read from left to right, and the first thing that is wrong is told."""
import os
import re
from typing import NamedTuple

import model
import operations
from image import IMAGE_ROOM, MESSAGE_ROOM, POSITIONS_ROOM, WEIGHTS_ROOM

JOURNAL = os.path.join(os.path.dirname(os.path.dirname(os.path.abspath(__file__))), "docs/JOURNAL.md")
LARGEST = IMAGE_ROOM - 1    # words of the largest image
PATH_ROOM = MESSAGE_ROOM    # the most bytes of a path
ITEM = 131_071      # the most bytes of a field of one value or of a list's item, with a carriage return behind it: docs/DECISIONS.md, 'The program'
NAME = 255          # the most bytes of a file's name, the system's
FOLDER = None       # stands for a folder among files
KEYS = "PUBLISHER ACCOUNT SIGNER AUTHORITY".split()
KEYS_OR_NONE = "PUBLISHER_ACCOUNT OLD OLD_OWNER NEW".split()
# Word lists, with how much of each is kept.
LISTS = {**dict.fromkeys("POSITIONS POSITION OLD_POSITIONS NEW_POSITIONS".split(), POSITIONS_ROOM), "WORDS": IMAGE_ROOM, "WEIGHTS": WEIGHTS_ROOM}
CALL, FEW, MANY, LONG, INPUT = "an unknown call", "a field too few", "a field too many", "a field too long", "the input can't be read"
NUMBER, LARGE, KEY, STATE, MESSAGE, LONG_PATH = "not a number", "a number too large", "not a key", "not a state", "not a message", "a path too long"
READ, WRITTEN, THROUGH = "the file can't be read", "the file can't be written", "the folder can't be written through"
UNOWNED, ABSENT = "an account without its owner", "no account, but its fields"
KINDS = [CALL, FEW, MANY, LONG, INPUT, NUMBER, LARGE, KEY, STATE, MESSAGE, LONG_PATH, READ, WRITTEN, THROUGH, UNOWNED, ABSENT]


def section(text, name):
    return text.split(f"\n## {name}\n")[1].split("\n## ")[0]


def calls_of(text):
    """The fields' names of every call, from the table under 'Calls'. `image` and `help` stand there twice; their field may be missing."""
    found = {}
    for name, fields in re.findall(r"^\| `([a-z-]+)((?: [A-Z_]+)*)` \|", section(text, "Calls"), re.M):
        found[name] = max(found.get(name, []), fields.split(), key=len)
    return found


def help_of(text):
    """What `help` says of each call's answer, in the order of its lines, from the table under 'Help'."""
    return dict(re.findall(r"^\| `([a-z-]+)` \| (.+) \|$", section(text, "Help"), re.M))


def kinds_of(text):
    """What may be told of a wrong line, from the table under 'Wrong lines'."""
    return re.findall(r"`([^`]+)`", " ".join(re.findall(r"^\| (`.+?`) \|", text.split("\n| WHAT |")[1].split("\n\n")[0], re.M)))


with open(JOURNAL) as f:
    TEXT = f.read()
CALLS, HELP = calls_of(TEXT), help_of(TEXT)
MAY_END = ("image", "help")         # calls whose one field may be missing
if sorted(kinds_of(TEXT)) != sorted(KINDS):
    raise SystemExit(f"{JOURNAL} tells other kinds of wrong lines: {sorted(set(kinds_of(TEXT)) ^ set(KINDS))}")
if sorted(CALLS) != sorted(HELP):
    raise SystemExit(f"{JOURNAL} has calls without help, or the other way round: {sorted(set(CALLS) ^ set(HELP))}")


PLAIN = re.compile(rb"[0-9]{1,19}(,[0-9]{1,19})*")     # a list that is right but for its length, and has no key


class Wrong(Exception):
    """What is said of a line behind its number."""

    def kind(self):
        return self.args[0].split(": ")[-1]


# Fields: what is wrong or nothing, and what each gives, as the model's lines have it.

def wrong_number(digits):
    """Nothing, or what is wrong; a number too large is told before a later byte that is no digit."""
    first = re.match(rb"[0-9]*", digits)[0]
    significant = first.lstrip(b"0")
    if len(significant) > 20 or int(significant or b"0") >= model.WORD:
        return LARGE
    return None if first and len(first) == len(digits) else NUMBER


def plain(digits):
    """A right number without leading zeros."""
    return digits.lstrip(b"0") or b"0"


def number(field):
    return wrong_number(field), plain(field)


def key(field):
    return None if re.fullmatch(rb"[0-9a-fA-F]{64}", field) else KEY, field.lower()


def key_or_none(field):
    return (None, field) if field == b"none" else key(field)


def message(field):
    """Of any length; looked at as far as it is kept."""
    kept = field[:2 * MESSAGE_ROOM]
    right = field == b"-" or (len(kept) % 2 == 0 and re.fullmatch(rb"[0-9a-fA-F]*", kept))
    return None if right else MESSAGE, kept.lower()


def state(field):
    return None if field.decode("latin-1") in operations.STATES else STATE, field


def path(field):
    return LONG_PATH if len(field) > PATH_ROOM else None, field


def call_name(field):
    return None if field.decode("latin-1") in CALLS else CALL, field


def item(field, returns):
    """One of a list: what is wrong or nothing, the item, and how many words it gives."""
    if len(field) + returns > ITEM:
        return LONG, field, 0
    if field.startswith(b"0x"):
        return key(field[2:])[0], field.lower(), 4
    return wrong_number(field), plain(field), 1


def words(field, room, returns):
    """Item by item, as long as there is room."""
    if field == b"-" or (PLAIN.fullmatch(field) and field.count(b",") < room):
        return None, field
    kept, items = [], field.split(b",", room)
    for at, one in enumerate(items, 1):
        if room <= 0:
            break
        what, value, count = item(one, returns if at == len(items) else 0)
        if what:
            return what, field
        kept.append(value)
        room -= count
    return None, b",".join(kept)


def read(name, field, returns):
    """A field by the name that the table gives it, with how many carriage returns stand directly behind it at the line's end."""
    if name in LISTS:
        return words(field, LISTS[name], returns)
    if name == "CAPS":
        return message(field)
    if len(field) + returns > ITEM:
        return LONG, field
    kinds = {"STATE": state, "PATH": path, "CALL": call_name, **dict.fromkeys(KEYS, key), **dict.fromkeys(KEYS_OR_NONE, key_or_none)}
    return kinds.get(name, number)(field)


# Lines.

def accounts(call, given):
    """What belongs to an account is there with it, and absent with it."""
    old, owner, old_positions, new, new_positions = given[3:]
    if old != b"none" and owner == b"none":
        raise Wrong(f"{call} OLD_OWNER: {UNOWNED}")
    for name, account, field, empty in (("OLD_OWNER", old, owner, b"none"), ("OLD_POSITIONS", old, old_positions, b"-"),
                                        ("NEW_POSITIONS", new, new_positions, b"-")):
        if account == b"none" and field != empty:
            raise Wrong(f"{call} {name}: {ABSENT}")


def parsed(line):
    """A call and its fields; nothing for a line that is passed over. One carriage return at the line's end doesn't count, but for a field's length."""
    fields = [field for field in line.removesuffix(b"\r").split(b" ") if field]
    if not fields or fields[0].startswith(b"#"):
        return None
    returns = [0] * (len(fields) - 1) + [int(line.endswith(fields[-1] + b"\r"))]
    call = fields.pop(0)
    if len(call) + returns.pop(0) > ITEM:
        raise Wrong(LONG)
    call = call.decode("latin-1")
    if call not in CALLS:
        raise Wrong(CALL)
    given = []
    for name, field, behind in zip(CALLS[call], fields, returns):
        what, value = read(name, field, behind)
        if what:
            raise Wrong(f"{call} {name}: {what}")
        given.append(value)
    if len(fields) > len(CALLS[call]):
        raise Wrong(f"{call}: {MANY}")
    if len(given) < len(CALLS[call]) and not (call in MAY_END and given == []):
        raise Wrong(f"{call} {CALLS[call][len(given)]}: {FEW}")
    if call == "stake-account":
        accounts(call, given)
    return call, given


def helped(call=None):
    """Every call with its fields; of one, what it answers too."""
    lines = ["  " + " ".join([name, *CALLS[name]]) for name in HELP if call in (None, name)]
    lines += [f"  answer: {HELP[call]}"] if call else []
    return "\n".join([f"ok {len(lines)}", *lines])


# Files: names in one folder, without `/`.

class Link(NamedTuple):
    name: bytes


def is_text(name):
    """Whether a file can have the name in the program: the standard library's paths are text."""
    try:
        name.decode()
    except UnicodeDecodeError:
        return False
    return True


def content_of(files, name):
    content = files.get(name, FOLDER)
    if isinstance(content, Link):
        return content_of(files, content.name)
    if content is FOLDER or b"\0" in name or not is_text(name):
        raise Wrong(f"load PATH: {READ}")
    return content


def save(files, name, content, pid):
    """By way of a second name, of which nothing is left; over a file or nothing."""
    second = name + b".%d.0.new" % pid
    if b"\0" in name or not is_text(name) or len(second) > NAME or name in (b".", b"..") or not isinstance(files.get(name, b""), bytes):
        raise Wrong(f"save PATH: {WRITTEN}")
    files[name] = content


class Statement:
    """The answers to an input, each with the input's line that it is behind; the files afterwards; what was wrong. On a terminal a run goes on behind a
    wrong line. The process's number is that of the run, as the second name of a file has it."""

    def __init__(self, data, files, pid, terminal=False):
        self.files, self.answers, self.wrong, self.pid = dict(files), [], [], pid
        self.site, self.over = model.Site(), False
        for k, line in enumerate(data.split(b"\n"), 1):
            try:
                if call := parsed(line):
                    self.answers.append((k, self.answer(*call) + "\n"))
            except Wrong as wrong:
                self.wrong.append(wrong)
                self.answers.append((k, f"line {k}: {wrong.args[0]}\n"))
                self.over = not terminal
            if self.over:
                break

    def answer(self, call, given):
        if call == "help":
            return helped(*(name.decode() for name in given))
        if call == "quit":
            self.over = True
            return "ok"
        if call not in ("load", "save"):
            return self.site.answer(" ".join([call, *(field.decode() for field in given)]))
        try:
            self.load(*given) if call == "load" else self.save(*given)
        except model.Refused as refused:
            return f"refused {refused.args[0]}"
        return f"ok {len(self.site.words)}"

    def load(self, name):
        self.site.load(content_of(self.files, name))

    def save(self, name):
        """What the image refuses comes before anything about the name."""
        save(self.files, name, self.site.saved(), self.pid)

    def output(self):
        return "".join(text for _, text in self.answers).encode()

    def upto(self, lines):
        """How many bytes the answers to the first lines have."""
        return sum(len(text) for k, text in self.answers if k <= lines)
