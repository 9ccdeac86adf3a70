"""A journal as it is written: every line with the model's answer and with who decides the expected one."""
import itertools
import os
import re
import subprocess
from typing import NamedTuple, Optional

import forms
import model
import operations

HERE = os.path.dirname(os.path.abspath(__file__))
MOST_EPOCHS = 100_000       # the oracle's, driver/checks.rs

# Who decides the expected answer.
RUST = "the Rust"
OUTSIDE = "the model: outside"      # the oracle must answer `outside`
PLAIN = "the model: a split"        # the Rust has no such call; in the driver a plain function stands for it, which must answer the same
# What docs/DIFFERENCES.md lists: the oracle must answer as the model says the Rust does.
COUNT, RATE, DRAINED = LISTED = [f"the model: {place}" for place in model.LISTED]
APART = "the model: behind those"   # the image after one of those, before both have the same again
WRONG = "the journal's forms"       # a wrong line; the oracle's wording is its own behind the colon

# The calls that can be refused, and the level that each came with. A position's state is asked of no pool; it came with `remove`, which takes it. A split
# is asked of none either, and came with no level: it is counted by itself.
CALLS = {"fresh": "watch", "advance": "watch", "forecast": "watch", "payment": "pay", **dict.fromkeys(operations.NAMES, "operate"), "state": "operate",
         "split": "split"}
POOLLESS = ("state", "split")


def name_of(text):
    """A right line's call, or none where it is passed over."""
    name, *_ = text.split(None, 1) or ["#"]
    return None if name.startswith("#") else name


class Line(NamedTuple):
    text: str
    answer: Optional[str]       # the model's; none for a comment
    decides: Optional[str]
    rust: Optional[str]         # what the oracle must answer; none where that says nothing
    again: bool = False         # the image that the program has, given to the oracle alone, whose own is apart

    def name(self):
        return name_of(self.text)

    def gives_image(self):
        """Whether the image is another one behind it, whatever it was."""
        return not self.again and (self.name() == "new" or (self.name() == "image" and len(self.text.split(None, 1)) > 1))


class Journal:
    def __init__(self):
        self.site = model.Site()
        self.lines = []
        self.calls = 0          # lines of a pool that can be refused
        self.poolless = 0       # of none: these come on top of the calls that a journal is to have
        self.apart = False

    def comment(self, text):
        self.lines.append(Line("# " + text, None, None, None))

    def decides(self, name, answer):
        if name in ("show", "help"):
            return OUTSIDE
        if name == "split":
            return PLAIN
        if name in CALLS and answer in ("refused 1", "refused 3", "refused 4", "refused 5"):
            return OUTSIDE
        if (answer == "refused 2" and name != "fresh") or self.site.passed > MOST_EPOCHS:
            return OUTSIDE
        if self.site.listed:
            return LISTED[model.LISTED.index(self.site.listed)]
        return APART if self.apart and name in ("image", "nonzero") else RUST

    def wanted(self, answer, decides):
        """What the oracle must answer."""
        return self.site.rust if decides in LISTED else {RUST: answer, PLAIN: answer, OUTSIDE: "outside", APART: None}[decides]

    def say(self, text):
        """One more line; answers what the model answers. A call finds the same image on both sides."""
        name, *fields = text.split(None, 1)
        of_pool = name in CALLS and name not in POOLLESS
        if self.apart and of_pool:
            self.put(self.site.words)
            self.lines[-1] = self.lines[-1]._replace(again=True)
        if name == "new" or (name == "image" and fields):
            self.apart = False
        answer = forms.helped(*text.split()[1:]) if name == "help" else self.site.answer(text)
        self.calls += of_pool
        self.poolless += name in POOLLESS
        decides = self.decides(name, answer)
        wanted = self.wanted(answer, decides)
        self.lines.append(Line(text, answer, decides, wanted))
        if name in ("advance", "payment") and wanted != answer:
            self.apart |= answer.startswith("ok") or wanted.startswith("ok")
        return answer

    def wrong(self, text, what):
        """The last line: one that ends the run."""
        told = f"line {len(self.lines) + 1}: {what}"
        self.lines.append(Line(text, told, WRONG, told))

    def put(self, words):
        return self.say("image " + (",".join(map(str, words)) or "-"))

    def text(self, again=True):
        """At will without the lines for the oracle alone."""
        return "".join(line.text + "\n" for line in self.lines if again or not line.again)

    def answered(self):
        return [line for line in self.lines if line.answer is not None]


def answers(text, written):
    """The lines that a program wrote when given a text, those of one answer as one: `ok N` to `show` or `help` has N lines more."""
    names = filter(None, map(name_of, text.split("\n")))
    written, found = iter(written), []
    for line in written:
        table = next(names, None) in ("show", "help") and re.fullmatch("ok ([0-9]+)", line)
        found.append("\n".join([line, *itertools.islice(written, int(table[1]) if table else 0)]))
    return found


def run(command, text, folder):
    """The answers that a program writes when given a text."""
    given, got = (os.path.join(folder, n) for n in ("given", "got"))
    with open(given, "w") as f:
        f.write(text)
    with open(given) as f, open(got, "w") as g:
        subprocess.run(command, stdin=f, stdout=g, cwd=folder)
    with open(got) as f:
        return answers(text, f.read().splitlines())


def oracle(text, folder):
    return run([os.path.join(HERE, "answer")], text, folder)


def agrees(line, rust):
    """Whether the oracle answers what it must."""
    if line.decides == WRONG:
        return rust.split(":")[0] == line.rust.split(":")[0]
    return line.rust in (None, rust)


def expected(line, rust):
    return rust if line.decides == RUST else line.answer
