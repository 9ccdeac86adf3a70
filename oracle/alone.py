"""Bad inputs that stand alone: very long ones, descriptors that can't be read or written, the script `mirror`; with those of alone_files.py and alone_terminal.py.
Each is given once, and what comes out is said by hand, from docs/JOURNAL.md."""
import os
import re
import shutil
import time

import alone_files
import forms
from alone_files import Files
from forms import ABSENT, CALL, FEW, IMAGE_ROOM, INPUT, KEY, LONG, LONG_PATH, MANY, MESSAGE, NUMBER, UNOWNED
from runs import image, told

MILLION = 1_000_000
NOTE = "mirror: standard output can't be written\n"
ZEROS, A_KEY = "0" * 64, "01" + "0" * 62
FRESH = "ok 29\nok\n"
KEPT = f"ok {IMAGE_ROOM}\n"


def million(text, times=100):
    """Pieces of a million bytes each, 100 MB unless said."""
    return [(text * MILLION)[:MILLION].encode()] * times


def after(line, *pieces):
    """A line of a fresh pool's journal, with what goes behind its start."""
    return [b"new 1 1\nfresh 10\n" + line.encode(), *pieces]


ADVANCE = "advance 10 10000 0 1 "
PAYMENT = f"payment 9 {A_KEY} {A_KEY} 0 0 none 0 "

# What an input of its own is answered.
INPUTS = [
    ("empty input", [], ""),
    ("a million line ends", million("\n", 1), ""),
    ("a million line ends with carriage returns", [b"\r\n" * MILLION], ""),
    ("a million lines of a space", [b" \n" * MILLION], ""),
    ("a NUL byte", [b"\0"], told(CALL)),
    ("1,000 NUL bytes and a line's end", [b"\0" * 1_000 + b"\n"], told(CALL)),
    ("a million NUL bytes", million("\0", 1), told(LONG)),
    ("100 MB of NUL bytes without an end", million("\0"), told(LONG)),
    ("100 MB of carriage returns without an end", million("\r"), told(LONG)),
    ("100 MB of digits without an end", million("1"), told(LONG)),
    ("100 MB of commas without an end", million(","), told(LONG)),
    ("100 MB of spaces without an end", million(" "), ""),
    ("100 MB of spaces and a carriage return", [*million(" "), b"\r"], ""),
    ("100 MB of # without an end", million("#"), ""),
    ("100 MB of #, then a call", [*million("#"), b"\nnonzero"], "ok\n"),
    ("100 MB of spaces, then a call", [*million(" "), b"nonzero"], "ok\n"),
    ("a call, then 100 MB of spaces", [b"nonzero", *million(" ")], "ok\n"),
    ("a call, then 100 MB of spaces and a carriage return", [b"nonzero", *million(" "), b"\r\nnonzero\r"], "ok\nok\n"),
    ("a call, then 100 MB of spaces and a field", [b"nonzero", *million(" "), b"1"], told(f"nonzero: {MANY}")),
    ("a call, then 100 MB of spaces and too few fields", [b"new 1", *million(" ")], told(f"new E: {FEW}")),
    ("a number of 100 MB of zeros", [b"fresh ", *million("0")], told(f"fresh EPOCH: {LONG}")),
    ("a number of 131,071 zeros", [b"fresh " + b"0" * 131_071], "refused 1\n"),
    ("a number of 131,072 zeros", [b"fresh " + b"0" * 131_072], told(f"fresh EPOCH: {LONG}")),
    ("a number of 131,070 zeros and a carriage return", [b"fresh " + b"0" * 131_070 + b"\r\nnonzero"], "refused 1\nok\n"),
    ("a number of 131,071 zeros and a carriage return", [b"fresh " + b"0" * 131_071 + b"\r\nnonzero"], told(f"fresh EPOCH: {LONG}")),
    ("a number of 131,071 zeros, a space and a carriage return", [b"fresh " + b"0" * 131_071 + b" \r\nnonzero"], "refused 1\nok\n"),
    ("a list's last number of 131,070 zeros and a carriage return", [b"image 1," + b"0" * 131_070 + b"\r\nnonzero"], "ok 2\nok 0:1\n"),
    ("a list's last number of 131,071 zeros and a carriage return", [b"image 1," + b"0" * 131_071 + b"\r"], told(f"image WORDS: {LONG}")),
    ("a list's number of 131,071 zeros, not the last one", [b"image 1," + b"0" * 131_071 + b",2\r\nnonzero"], "ok 3\nok 0:1 2:2\n"),
    ("a key of 100 MB", [f"payment 1 {ZEROS} ".encode(), *million("a")], told(f"payment ACCOUNT: {LONG}")),
    ("a state of 100 MB", [f"remove 1 {ZEROS} {ZEROS} 1 LOCKED".encode(), *million("D")], told(f"remove STATE: {LONG}")),
    ("help of 100 MB", [b"help ", *million("a")], told(f"help CALL: {LONG}")),
    ("a message of 100 MB of digits", after(ADVANCE, *million("ab")), FRESH + "refused 3\n"),
    ("the same, then a line", after(ADVANCE, *million("ab"), b"\nnonzero\n"), FRESH + "refused 3\nok 0:9\n"),
    ("the same, then a field", after(ADVANCE, *million("ab"), b" 0\n"), FRESH + told(f"advance: {MANY}", 3)),
    ("a message of 100 MB, NUL bytes from 81,945 on", after(ADVANCE, b"ab" * 40_972, *million("\0"), b"\nnonzero"), FRESH + "refused 3\nok 0:9\n"),
    ("a message of 100 MB, its byte 81,944 no digit", after(ADVANCE, b"ab" * 40_971 + b"ag", *million("ab")), FRESH + told(f"advance CAPS: {MESSAGE}", 3)),
    ("a message of 40,973 bytes", after(ADVANCE, b"ab" * 40_973), FRESH + "refused 3\n"),
    ("a message of 81,945 digits", after(ADVANCE, b"a" * 81_945), FRESH + "refused 3\n"),
    ("a message of 81,943 digits", after(ADVANCE, b"a" * 81_943), FRESH + told(f"advance CAPS: {MESSAGE}", 3)),
    ("a path of 100 MB", [b"load ", *million("a")], told(f"load PATH: {LONG}")),
    ("a path of 40,973 bytes", [b"load " + b"a" * 40_973], told(f"load PATH: {LONG_PATH}")),
    ("a list of 100 MB of commas", [b"image ", *million(",")], told(f"image WORDS: {NUMBER}")),
    ("a list of 50 million numbers", [b"image ", *million("0,"), b"\nnonzero"], KEPT + "ok\n"),
    ("a list of 174,552 numbers and 100 MB of NUL bytes", [b"image " + b"0," * IMAGE_ROOM, *million("\0"), b"\nnonzero"], KEPT + "ok\n"),
    ("a list of 174,552 numbers, the last one with 100 MB of zeros", [b"image " + b"0," * (IMAGE_ROOM - 1), *million("0")], told(f"image WORDS: {LONG}")),
    ("a list's number of 100 MB", [b"image 1,", *million("0")], told(f"image WORDS: {LONG}")),
    ("a list's key of 100 MB", [b"image 0x", *million("0")], told(f"image WORDS: {LONG}")),
    ("a list of a million numbers", [b"image " + b"1," * (MILLION - 1) + b"1\n"], KEPT),
    ("a list of a million keys", [b"image " + (f"0x{ZEROS},".encode()) * MILLION + b"\nnonzero"], KEPT + "ok\n"),
    ("a list of a million empty items", [b"image " + b"," * MILLION + b"\n"], told(f"image WORDS: {NUMBER}")),
    ("positions of a million numbers", after(PAYMENT, b"1," * MILLION, b"\nnonzero"), FRESH + "refused 4\nok 0:9\n"),
    ("positions of 100 MB of keys", after(PAYMENT, *[f"0x{A_KEY},".encode() * 15_000] * 100), FRESH + "refused 4\n"),
    ("a position of a million numbers", [b"state 1 " + b"1," * MILLION], "refused 4\n"),
    ("weights of a million numbers", [b"split 1 " + b"1," * MILLION], "refused 28\n"),
    ("65 weights and 100 MB of NUL bytes", [b"split 1 " + b"0," * 65, *million("\0"), b"\nnonzero"], "refused 28\nok\n"),
    ("a million fields", [b"new" + b" 1" * MILLION + b"\n"], told(f"new: {MANY}")),
    ("a million fields behind no call", [b"x" + b" 1" * MILLION + b"\n"], told(CALL)),
    ("a million fields in a comment", [b"#" + b" 1" * MILLION + b"\nnonzero\n"], "ok\n"),
    ("a million lines", [b"settings 1 1\n" * MILLION], "ok\n" * MILLION),
    ("a million lines with carriage returns", [b"settings 1 1\r\n" * MILLION], "ok\n" * MILLION),
    ("a million lines, the last one wrong", [b"settings 1 1\n" * (MILLION - 1), b"x"], "ok\n" * (MILLION - 1) + told(CALL, MILLION)),
    ("a million comments, then a wrong line", [b"#\n" * MILLION, b"nonzero 1"], told(f"nonzero: {MANY}", MILLION + 1)),
    ("help, 1,000 times", [b"help\n" * 1_000], (forms.helped() + "\n") * 1_000),
    ("quit, then 100 MB", [b"new 1 1\nquit\n", *million("x")], "ok 29\nok\n"),
    ("quit, then a wrong line", [b"quit\r\nx\n"], "ok\n"),
    ("quit without a line's end", [b"nonzero\nquit"], "ok\nok\n"),
    ("quit with a field", [b"quit 1\nnonzero\n"], told(f"quit: {MANY}")),
    ("an account without its owner", [f"stake-account {A_KEY} {A_KEY} {A_KEY} {A_KEY} none - none -".encode()], told(f"stake-account OLD_OWNER: {UNOWNED}")),
    ("positions of no account", [f"stake-account {A_KEY} {A_KEY} {A_KEY} none none - none 0".encode()], told(f"stake-account NEW_POSITIONS: {ABSENT}")),
    ("a key of 65 digits", [f"create-slash-event 1 {ZEROS}0 0".encode()], told(f"create-slash-event PUBLISHER: {KEY}")),
]

# In place of the command `build`: what rt says of the crates in $CRATES, the first of which takes a second.
BUILD = b"""#!/bin/sh
for crate in $CRATES; do
    echo "rt: chose --jobs 4 for $crate"
    [ "$crate" != types ] || sleep 1.1
    echo "fn $crate::f: proved"
    echo "logic=proved functions=1"
done
[ "$FAILS" = 0 ] || { echo "not proved"; exit 1; }
cp "$M" "${0%build}target/bin/mirror"
"""
BEGUN = "mirror: proving and building the program; the first time takes some minutes"
LOG = ["rt: chose --jobs 4 for types", "fn types::f: proved", "logic=proved functions=1", "not proved"]
UNBUILT = "mirror: the program could not be built"


def proved(crate, k, seconds="[01]"):
    """The line on a crate, of three."""
    return rf"mirror: {crate} proved, {k} of 3 \({seconds} s\), [1-9] s in all"


def read_at_hand(end):
    """What came by a terminal."""
    try:
        return os.read(end, 10_000).decode()
    except BlockingIOError:
        return ""


class Alone(Files):
    # Inputs and descriptors.

    def inputs(self):
        self.clean()
        for says, chunks, out in INPUTS:
            yield self.verdict(says, self.given(chunks), out)

    def unreadable(self):
        self.clean()
        yield self.verdict("input closed", self.shell('exec "$M" <&-'), told(INPUT))
        yield self.verdict("input closed, output and standard error too", self.shell('exec "$M" <&- >&- 2>&-'), "")
        yield self.verdict("a folder as input", self.shell('exec "$M" <.'), told(INPUT))
        yield self.verdict("input open for writing alone", self.shell('exec "$M" 0>given'), told(INPUT))
        yield self.verdict("a pipe that has nothing yet and won't wait", self.shell('exec "$M"', [], stdin=self.unwaiting()), told(INPUT))
        yield self.verdict("an endless input of NUL bytes", self.shell('exec "$M" </dev/zero'), told(LONG))

    def unwaiting(self):
        """The end of a pipe that a read fails on as long as nothing is there; the other end stays open."""
        end, self.other_end = os.pipe()
        os.set_blocking(end, False)
        return end

    def unwritable(self):
        self.clean()
        yield self.verdict("output closed", self.shell('exec "$M" >&-'), "", err=NOTE)
        yield self.verdict("output to a full device", self.shell('exec "$M" >/dev/full'), "", err=NOTE)
        yield self.verdict("output open for reading alone", self.shell('exec "$M" 1</dev/null'), "", err=NOTE)
        yield self.verdict("output and standard error to a full device", self.shell('exec "$M" >/dev/full 2>&1'), "")
        yield self.verdict("endless input, output to a full device", self.shell('yes new 1 1 | "$M" >/dev/full'), "", err=NOTE)
        yield self.verdict("endless input of help, output to a full device", self.shell('yes help | "$M" >/dev/full'), "", err=NOTE)
        yield self.verdict("quit, output to a full device", self.shell('exec "$M" >/dev/full', [b"quit\n"]), "", err=NOTE)
        yield self.verdict("a long answer to a full device", self.shell('exec "$M" >/dev/full', [b"new 1024 52\nimage\n" * 50]), "", err=NOTE)
        yield self.verdict("endless input, a pipe that nobody reads", self.shell('yes new 1 1 | "$M" | true; exit ${PIPESTATUS[1]}'), "", [0, 141], None)
        yield self.verdict("the same, broken in the middle", self.shell('yes new 1 1 | "$M" | head -n 9; exit ${PIPESTATUS[1]}'), "ok 29\n" * 9, [0, 141], None)
        yield self.verdict("the same, the signal ignored", self.shell('trap "" PIPE; yes new 1 1 2>/dev/null | "$M" | true; exit ${PIPESTATUS[1]}'), "", err=NOTE)
        self.put("pool", image(1, 1, 5))
        got = self.shell('exec "$M" >&-', [b"new 1 1\nfresh 9\nsave pool\nnonzero\nsave pool\n"])
        wrong = None if self.read("pool") in (image(1, 1, 5), image(1, 1, 9)) and not self.seconds() else "no whole file"
        yield self.verdict("output closed: a saved file takes no answers", got, "", err=NOTE, more=wrong)

    # The script.

    def beside(self):
        """The script, which finds the program built beside it; answers the version that is told."""
        self.clean()
        root = os.path.dirname(os.path.dirname(os.path.abspath(__file__)))
        beside = self.path("beside")
        os.makedirs(os.path.join(beside, "target/bin"))
        os.makedirs(os.path.join(beside, "crates"))
        open(os.path.join(beside, "crates.txt"), "w").close()
        for name in ("mirror", "VERSION"):
            shutil.copy(os.path.join(root, name), beside)
        shutil.copy(self.mirror, os.path.join(beside, "target/bin/mirror"))
        time.sleep(.01)
        open(os.path.join(beside, "target/mirror.stamp"), "w").close()
        with open(os.path.join(root, "VERSION")) as f:
            return f.read().strip()

    def script(self):
        """The statuses of the script `mirror`."""
        version = self.beside()
        refused, right = b"new 1 1\nfresh 0\n", b"new 1 1\n"
        self.put("right", right)
        self.put("refused", refused)
        for says, line, chunks, out, status in (
                ("a right journal", "beside/mirror -", [right], "ok 29\n", 0), ("empty input", "beside/mirror -", [], "", 0), ("a file", "beside/mirror right", [], "ok 29\n", 0),
                ("a pipe without a name", "beside/mirror", [right], "ok 29\n", 0), ("a refused call", "beside/mirror -", [refused], "ok 29\nrefused 2\n", 0),
                ("a wrong line", "beside/mirror -", [b"new 1 1\nx\n"], "ok 29\n" + told(CALL, 2), 1), ("quit", "beside/mirror -", [b"quit\nx\n"], "ok\n", 0),
                ("a folder as input", "beside/mirror - <.", [], told(INPUT), 1), ("input closed", "beside/mirror - <&-", [], told(INPUT), 1),
                ("output to a full device", "beside/mirror - >/dev/full", [right], "", 1), ("output closed", "beside/mirror - >&-", [right], "", 1),
                ("endless input, a broken pipe", "yes new 1 1 | beside/mirror - | true; exit ${PIPESTATUS[1]}", [], "", 1),
                ("--strict, a right journal", "beside/mirror --strict -", [right], "ok 29\n", 0), ("--strict, a file with a refused call", "beside/mirror --strict refused", [], "ok 29\nrefused 2\n", 3),
                ("--strict, a refused call that is not the last", "beside/mirror --strict -", [refused + b"nonzero\n"], "ok 29\nrefused 2\nok\n", 3),
                ("--strict, a refused call and a wrong line", "beside/mirror --strict -", [refused + b"x\n"], "ok 29\nrefused 2\n" + told(CALL, 3), 1),
                ("--strict, output to a full device", "beside/mirror --strict - >/dev/full", [refused], "", 1), ("--version", "beside/mirror --version", [], f"mirror {version}\n", 0)):
            yield self.verdict(f"./mirror, {says}", self.shell(line, chunks), out, [status], None)
        yield from self.usage()

    def usage(self):
        """What is told on standard output, and what on standard error: a text that has this in it."""
        for says, words, text, status in (
                ("--help", "--help", r"--strict(.|\n)*--version", 0), ("an unknown option", "--unknown", r"--unknown", 2), ("another one", "-x", r"-x", 2),
                ("an unknown option behind a right one", "--strict --stric right", r"--stric\b", 2), ("a second journal", "right refused", r"refused", 2),
                ("a second journal behind -", "- right", r"right", 2), ("a journal that isn't there", "missing", r"missing", 2),
                ("a journal in a folder that isn't there", "missing/journal", r"missing/journal", 2), ("a journal without a name", "''", r".", 2)):
            got = self.shell(f"beside/mirror {words}", [b"new 1 1\n"])
            there, empty = (got[1], got[2]) if status == 0 else (got[2], got[1])
            yield self.verdict(f"./mirror, {says}", got, None, [status], None, None if re.search(text, there) and not empty else f"told {there[:200]!r}, and {empty[:200]!r}")
        self.put("hidden", b"new 1 1\n")
        os.chmod(self.path("hidden"), 0)
        got = self.shell("beside/mirror hidden", [], nobody=True)
        yield self.verdict("./mirror, a journal that may not be read", got, "", [2], None, None if "hidden" in got[2] else f"told {got[2][:200]!r}")
        yield from self.script_at_terminal()
        yield from self.builds()

    # The build, of which the script tells how far it is.

    def builds(self):
        """Crate by crate on a terminal, and elsewhere only that a first build takes a while. The program is made of three of the crates that are listed."""
        self.put("beside/crates.txt", b"# the crates\ntext: types\ntypes:\nother: types\nmirror: text types kits\n")
        self.put("beside/build", BUILD)
        os.chmod(self.path("beside/build"), 0o777)
        first, last = proved("types", 1, "[1-9]"), proved("mirror", 3)
        for says, crates, lines in (
                ("all proved", "types text mirror", [first, proved("text", 2), last]), ("some proved before", "types mirror", [first, proved("mirror", 2), "mirror: 1 of 3 as they were proved before"]),
                ("all proved before", "", [])):
            yield self.unbuilt(says, crates, [BEGUN, *lines])
        yield self.unbuilt("one that fails", "types", [BEGUN, first, *LOG, UNBUILT], fails=True)
        for says, crates, lines, fails in (("all proved", "types text mirror", [], False), ("one that fails", "types", [*LOG, UNBUILT], True)):
            yield self.unbuilt(says, crates, lines, False, fails)
        os.remove(self.path("beside/target/bin/mirror"))
        for name in ("src", "out"):
            os.makedirs(self.path(f"beside/crates/text/{name}"))
        yield self.unbuilt("the first one", "types text mirror", [BEGUN], False)
        for says, name, lines in (("a file of what rt keeps is newer", "beside/crates/text/out/kept", []), ("a source is newer", "beside/crates/text/src/lib.rt", [BEGUN]), ("nothing is newer", None, []),
                                  ("the list of crates is newer", "beside/crates.txt", [BEGUN])):
            time.sleep(.01)
            if name:
                self.put(name, b"mirror:\n")
            yield self.built(says, "", lines)

    def unbuilt(self, *of, **more):
        """The same where nothing says that the program is built."""
        if os.path.exists(self.path("beside/target/mirror.stamp")):
            os.remove(self.path("beside/target/mirror.stamp"))
        return self.built(*of, **more)

    def built(self, says, crates, lines, terminal=True, fails=False):
        """A journal that is answered behind a build that proves these crates, and the lines on standard error."""
        master, end = self.terminal()
        got = self.shell("beside/mirror -", env={"CRATES": crates, "FAILS": "1" if fails else "0"}, **({"stderr": end} if terminal else {}))
        told_lines = read_at_hand(master) if terminal else got[2]
        os.close(end)
        os.close(master)
        wrong = None if re.fullmatch("".join(line + "\n" for line in lines), told_lines) else f"told {told_lines[-300:]!r}"
        return self.verdict(f"./mirror, a build{'' if terminal else ', not on a terminal'}: {says}", got, "" if fails else "ok 29\n", [2 if fails else 0], None, wrong)


def tried(work):
    """How many faults were put in, and those that are not found."""
    return alone_files.tried(Alone, work)


def run(mirror, work):
    """Every case: its name, what is wrong or nothing, the kind of wrong line that it met."""
    a = Alone(mirror, work)
    for part in (a.inputs, a.unreadable, a.unwritable, a.terminals, a.script, a.loads, a.saves, a.limits, a.written_through, a.failing_input, a.full_disk, a.killed, a.at_once):
        yield from part()
    shutil.rmtree(a.folder, ignore_errors=True)
