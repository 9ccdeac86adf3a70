"""Inputs by a terminal, where a wrong line is told and the run goes on with the image, the settings and the files as they were."""
import fcntl
import os
import termios
import threading
import time
import tty

import forms
from forms import ABSENT, CALL, FEW, INPUT, KEY, LARGE, LONG, LONG_PATH, MANY, MESSAGE, NUMBER, READ, STATE, THROUGH, UNOWNED, WRITTEN
from runs import Runs, image, told, type_in

NOTE = "mirror: standard output can't be written\n"
A_KEY = "01" + "0" * 62
END = "\x04"        # of the input, as it is typed; within a line it hands over what was typed, and must be typed again
POSITION = "2,1,5,1,8,0,0,0,0"
# A line of each kind, and more, with what is told of it.
WRONG = [
    ("x", CALL), ("\0", CALL), ("x" + " 1" * 200_000, CALL), ("help x", f"help CALL: {CALL}"), ("y" * 200_000, LONG), ("z" * 131_072, LONG), ("new 3", f"new E: {FEW}"),
    ("new 3 x", f"new E: {NUMBER}"), ("new 3 7 1", f"new: {MANY}"), ("settings 5 x", f"settings UNLOCKING: {NUMBER}"), ("settings 5 6 7", f"settings: {MANY}"), ("fee 1 2", f"fee: {MANY}"),
    ("fresh 5 5", f"fresh: {MANY}"), ("quit 1", f"quit: {MANY}"), ("fresh " + "0" * 200_000, f"fresh EPOCH: {LONG}"), ("fresh " + "0" * 200_000 + " 5", f"fresh EPOCH: {LONG}"),
    ("fresh 18446744073709551616", f"fresh EPOCH: {LARGE}"), ("fresh 1\r", f"fresh EPOCH: {NUMBER}"), (f"create-slash-event 1 {A_KEY[1:]} 0", f"create-slash-event PUBLISHER: {KEY}"),
    (f"remove 1 {A_KEY} {A_KEY} 1 locked", f"remove STATE: {STATE}"), ("advance 10 10000 0 1 0", f"advance CAPS: {MESSAGE}"),
    ("advance 10 10000 0 1 g" + "0" * 300_000, f"advance CAPS: {MESSAGE}"), ("advance 10 10000 0 1 " + "0" * 300_000 + " 0", f"advance: {MANY}"),
    ("image 1,x", f"image WORDS: {NUMBER}"), ("image 1,2,3,0x12", f"image WORDS: {KEY}"), ("image 7 8", f"image: {MANY}"), ("image " + "7," * 100_000 + "x", f"image WORDS: {NUMBER}"),
    ("image " + "7," * 29 + "x" + ",7" * 200_000, f"image WORDS: {NUMBER}"), ("image " + "7," * 200_000 + " 7", f"image: {MANY}"), ("image 7," + "7" * 200_000, f"image WORDS: {LONG}"),
    (f"payment 10 {A_KEY} {A_KEY} 0 0 none 0 {POSITION},,", f"payment POSITIONS: {NUMBER}"), ("load " + "a" * 40_973, f"load PATH: {LONG_PATH}"), ("load missing", f"load PATH: {READ}"),
    ("load folder", f"load PATH: {READ}"), ("load pool pool", f"load: {MANY}"), ("save missing/pool", f"save PATH: {WRITTEN}"), ("save folder", f"save PATH: {WRITTEN}"),
    ("save link", f"save PATH: {WRITTEN}"), ("save pool 1", f"save: {MANY}"), (f"stake-account {A_KEY} {A_KEY} {A_KEY} {A_KEY} none - none -", f"stake-account OLD_OWNER: {UNOWNED}"),
    (f"stake-account {A_KEY} {A_KEY} {A_KEY} none none - none 0", f"stake-account NEW_POSITIONS: {ABSENT}"),
]


class Terminals(Runs):
    def terminal(self, cooked=False):
        """Both ends of one: as it is for people, but for the echo, or one that hands over every byte as it is."""
        master, terminal = os.openpty()
        if cooked:
            mode = termios.tcgetattr(terminal)
            mode[tty.LFLAG] &= ~termios.ECHO
            termios.tcsetattr(terminal, termios.TCSANOW, mode)
        else:
            tty.setraw(terminal)
        os.set_blocking(master, False)
        return master, terminal

    def typed(self, text, cooked=False, script='exec "$M"', **how):
        """A run that is given this by a terminal."""
        master, terminal = self.terminal(cooked)
        try:
            return self.shell(script, [text.encode()], stdin=terminal, feeder=lambda child, chunks: [type_in(child, master, chunk) for chunk in chunks], **how)
        finally:
            os.close(master)
            os.close(terminal)

    def hung_up(self, data):
        """A run whose terminal goes away when it has read this."""
        master, terminal = os.openpty()
        tty.setraw(terminal)
        os.write(master, data)
        threading.Thread(target=self.hang_up, args=(master, terminal)).start()
        return self.given([], stdin=terminal)

    def hang_up(self, master, terminal):
        while int.from_bytes(fcntl.ioctl(terminal, termios.FIONREAD, bytes(4)), "little"):
            time.sleep(.01)
        time.sleep(.2)
        os.close(terminal)
        os.close(master)

    def terminals(self):
        self.clean()
        os.mkdir(self.path("folder"))
        os.symlink("pool", self.path("link"))
        self.put("pool", image(2, 4, 5))
        self.put("odd", b"1234567")
        files = dict(folder=None, link=None, odd=b"1234567")
        yield self.verdict("a terminal, wrong lines of every kind: the run goes on, and the image stays", self.every_kind(), self.after_every_kind(), more=self.files_wrong(files, pool=image(2, 4, 9)))
        for says, text, out in (
                ("a load that is refused: the image stays", "new 1 1\nfresh 9\nload odd\nnonzero\nquit\n", "ok 29\nok\nrefused 1\nok 0:8\nok\n"),
                ("quit", "new 1 1\nquit\nnonzero\n", "ok 29\nok\n"), ("help", "help\nhelp fee\nquit\n", forms.helped() + "\n" + forms.helped("fee") + "\nok\n"),
                ("carriage returns", "new 1 1\r\nx\r\nfresh 10 \r\n\r\n  \r\nnonzero\rx\r\nnonzero\r\r\nnonzero\r\nquit\r\n",
                 "ok 29\n" + told(CALL, 2) + "ok\n" + told(CALL, 6) + told(CALL, 7) + "ok 0:9\nok\n"),
                ("a wrong line longer than is held at once, then others", "x" * 500_000 + "\n" + "nonzero " + "x" * 500_000 + "\n" + "fresh " + "1" * 500_000 + " 1\nnonzero\nquit\n",
                 told(LONG) + told(f"nonzero: {MANY}", 2) + told(f"fresh EPOCH: {LONG}", 3) + "ok\nok\n"),
                ("long fields that are right",
                 "new 1 1\nadvance 10 10000 0 1 " + "a" * 300_000 + "".join(f"\n{call} {'0,' * 200_000}x" for call in ("state 8", "split 8", "image")) + "\nnonzero\nquit\n",
                 "ok 29\nrefused 3\nrefused 4\nrefused 28\nok 174552\nok\nok\n")):
            yield self.verdict(f"a terminal, {says}", self.typed(text), out)
        for says, text, out in (
                ("lines that are typed", "new 1 1\rx\rnonzero\rquit\r", "ok 29\n" + told(CALL, 2) + "ok\nok\n"), ("the input's end", "new 1 1\n" + END, "ok 29\n"), ("nothing but the input's end", END, ""),
                ("the input's end behind a wrong line", "new 1 1\nx\n" + END, "ok 29\n" + told(CALL, 2)), ("the input's end behind a line without its own", "new 1 1\nnonzero" + 9 * END, "ok 29\nok\n"),
                ("the input's end within a wrong line", "new 1 1\nfresh" + 9 * END, "ok 29\n" + told(f"fresh EPOCH: {FEW}", 2))):
            yield self.verdict(f"a terminal, {says}", self.typed(text, cooked=True), out)
        yield self.verdict("a terminal that is closed behind some fields", self.hung_up(b"new 1 1\nadvance 10 "), "ok 29\n" + told(INPUT, 2))
        yield self.verdict("a terminal that is closed behind a wrong line", self.hung_up(b"new 1 1\nx\nnonzero\nadvance 10 "), "ok 29\n" + told(CALL, 2) + "ok\n" + told(INPUT, 4))
        yield self.verdict("a terminal, output to a full device", self.typed("x\nnew 1 1\n", script='exec "$M" >/dev/full'), "", err=NOTE)
        yield self.to_a_terminal()

    def every_kind(self):
        """Each wrong line ahead of a call that tells the image, and at the end one that tells the settings and one that saves."""
        missing = {*forms.KINDS} - {what.split(": ")[-1] for _, what in WRONG} - {INPUT, THROUGH}
        if missing:
            raise SystemExit(f"alone_terminal.py has no wrong line of the kinds {sorted(missing)}")
        lines = "".join(f"{line}\r\nnonzero\n" for line, _ in WRONG)
        return self.typed(f"new 2 4\nsettings 604800 3\nfresh 9\n{lines}state 10 {POSITION}\nsave pool\nquit\n")

    def after_every_kind(self):
        answers = "".join(told(what, 4 + 2 * k) + "ok 0:8\n" for k, (_, what) in enumerate(WRONG))
        return f"ok 91\nok\nok\n{answers}ok UNLOCKING\nok 91\nok\n"

    def to_a_terminal(self):
        """Output to a terminal and input by a pipe: a wrong line ends the run."""
        master, terminal = self.terminal()
        status, _, err = self.given([b"new 1 1\nx\nnonzero\n"], stdout=terminal)
        out = os.read(master, 10_000).decode()
        os.close(master)
        os.close(terminal)
        return self.verdict("answers to a terminal, a wrong line by a pipe", (status, out, err), "ok 29\n" + told(CALL, 2))

    def script_at_terminal(self):
        """The script's status: of all lines, not of the last one."""
        for says, words, text, out, status in (
                ("a wrong line, then a right one", "-", "new 1 1\nx\nnonzero\nquit\n", "ok 29\n" + told(CALL, 2) + "ok\nok\n", 1), ("right lines", "-", "new 1 1\nfresh 0\nquit\n", "ok 29\nrefused 2\nok\n", 0),
                ("--strict, a refused call", "--strict -", "new 1 1\nfresh 0\nquit\n", "ok 29\nrefused 2\nok\n", 3),
                ("--strict, a wrong line and a refused call", "--strict -", "new 1 1\nx\nfresh 0\nquit\n", "ok 29\n" + told(CALL, 2) + "refused 2\nok\n", 1)):
            yield self.verdict(f"./mirror, by a terminal, {says}", self.typed(text, script=f"beside/mirror {words}"), out, [status])
