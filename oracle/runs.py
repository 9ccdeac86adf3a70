"""Runs of the program in a folder of their own, and verdicts on them: what the cases that stand alone are made of."""
import os
import shutil
import signal
import subprocess
import threading
import time

import model

LIMIT = 10
NOBODY = 65_534


def image(p, e, epoch):
    """The file of a fresh pool."""
    return (epoch - 1).to_bytes(8, "little") + bytes(8 * model.length(p, e) - 8)


def filled(p, e, word):
    """The file of an image that has this word everywhere."""
    return word.to_bytes(8, "little") * model.length(p, e)


def told(what, line=1):
    return f"line {line}: {what}\n"


def type_in(child, end, piece):
    """Gives a piece by a pipe, or by a terminal, which takes what it has room for, and nothing when nobody reads it any more."""
    while piece:
        try:
            piece = piece[os.write(end, piece):]
        except BlockingIOError:
            if child.poll() is not None:
                return
            time.sleep(0)


class Limit:
    """Ends a run, and what it started, when its time is over. The run leads a group of its own."""

    def __init__(self, child, seconds):
        self.child, self.late = child, False
        self.timer = threading.Timer(seconds, self.stop)
        self.timer.daemon = True

    def stop(self):
        self.late = True
        try:
            os.killpg(self.child.pid, signal.SIGKILL)
        except ProcessLookupError:
            pass

    def __enter__(self):
        self.timer.start()
        return self

    def __exit__(self, *_):
        self.timer.cancel()


class Runs:
    def __init__(self, mirror, work, quiet=False):
        self.work = work
        self.mirror = os.path.join(work, "mirror")      # a copy that nobody may run too
        shutil.copy(mirror, self.mirror)
        self.folder = os.path.join(work, "alone")
        self.root = os.geteuid() == 0
        self.quiet = quiet

    def say(self, text):
        if not self.quiet:
            print(text, flush=True)

    # The folder.

    def clean(self):
        """An empty folder, open to all."""
        shutil.rmtree(self.folder, ignore_errors=True)
        os.mkdir(self.folder)
        os.chmod(self.folder, 0o777)

    def path(self, name):
        return os.path.join(self.folder, name)

    def put(self, name, content):
        """A file that all may write, in place of one that nobody may."""
        if os.path.lexists(self.path(name)):
            os.remove(self.path(name))
        with open(self.path(name), "wb") as f:
            f.write(content)
        os.chmod(self.path(name), 0o666)

    def read(self, name):
        with open(self.path(name), "rb") as f:
            return f.read()

    def seconds(self, name="pool"):
        """The second names of a file that are there."""
        return sorted(other for other in os.listdir(self.folder) if other.startswith(name + ".") and other.endswith(".new"))

    def files_wrong(self, wanted=None, **more):
        """Nothing, or the names that are not as wanted, with those that shouldn't be there. A name is wanted as a file of these bytes, or as anything (none)."""
        wanted = {**(wanted or {}), **more}
        wrong = sorted(name for name in {*os.listdir(self.folder), *wanted} if name not in wanted or not os.path.lexists(self.path(name)) or
                       (wanted[name] is not None and (os.path.islink(self.path(name)) or self.read(name) != wanted[name])))
        return f"files not as said: {wrong}" if wrong else None

    # Runs.

    def given(self, chunks, command=None, nobody=False, feeder=None, **how):
        """Status, output and standard error of a run that is given these bytes, by a pipe unless said; a run that doesn't end has the status `no end`."""
        if nobody and self.root:
            how.update(user=NOBODY, group=NOBODY, extra_groups=[])
        out, err = (open(os.path.join(self.work, name), "w+b") for name in ("out", "err"))
        how = {"stdin": subprocess.PIPE, "stdout": out, "stderr": err, "cwd": self.folder, "start_new_session": True, **how}
        child = subprocess.Popen(command or [self.mirror], **how)
        self.pid = child.pid
        with Limit(child, LIMIT) as limit:
            (feeder or self.feed)(child, chunks)
            status = child.wait()
        with out, err:
            out.seek(0)
            err.seek(0)
            return "no end" if limit.late else status, out.read().decode("latin-1"), err.read().decode("latin-1")

    def feed(self, child, chunks):
        if child.stdin is None:
            return
        try:
            for chunk in chunks:
                child.stdin.write(chunk)
            child.stdin.close()
        except BrokenPipeError:
            pass

    def shell(self, script, chunks=(b"new 1 1\n",), env=None, **how):
        """A shell's line, the program being $M."""
        return self.given(chunks, ["bash", "-c", script], env={**os.environ, "M": self.mirror, **(env or {})}, **how)

    # Verdicts.

    def verdict(self, says, got, out, status=(0,), err="", more=None):
        """The case's name, what is wrong or nothing, and the kind of wrong line that it met. `more` is what else is wrong."""
        last = got[1].splitlines()[-1:] or ["(no answer)"]
        wrong = more
        if got[0] not in status:
            wrong = f"status {got[0]}"
        elif out is not None and got[1] != out:
            wrong = f"answered {got[1][-200:]!r}, expected {out[-200:]!r}"
        elif err is not None and got[2] != err:
            wrong = f"standard error {got[2][:200]!r}"
        gave = f"{last[0][:80]}, status {got[0]}" + (", a note on standard error" if got[2] else "")
        self.say(f"case {says}: {'FAULT, ' if wrong else ''}{gave}")
        return says, wrong, last[0].split(": ")[-1] if last[0].startswith("line ") and not wrong else None

    def untried(self, says, why):
        """A case that can't be tried here; that is a fault."""
        self.say(f"case {says}: NOT TRIED, {why}")
        return says, f"NOT TRIED: {why}", None
