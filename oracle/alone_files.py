"""Files and disks: what can't be loaded or saved, a full disk, the order in which a save is written through, runs that are cut off, and two that save at once."""
import os
import random
import resource
import shutil
import signal
import stat
import subprocess
import sys
import time

import model
from alone_terminal import Terminals
from forms import IMAGE_ROOM, INPUT, LARGEST, MANY, READ, THROUGH, WRITTEN
from runs import LIMIT, NOBODY, Limit, filled, image, told

MILLION = 1_000_000
KILLS = PAIRS = 300
FULL = 8 * LARGEST

# Stands between the program and the system's calls: notes those of a save, and fails the one that $FAIL names. A file named `midway` can be read once; of
# standard input `input N` names a read by its number, the first being 1.
WATCH = r"""
#define _GNU_SOURCE
#include <dlfcn.h>
#include <errno.h>
#include <fcntl.h>
#include <stdarg.h>
#include <stdio.h>
#include <stdlib.h>
#include <string.h>
#include <sys/stat.h>
#include <sys/syscall.h>
#include <unistd.h>

static void note(const char *what, const char *first, const char *second)
{
    char line[9000];
    int n = snprintf(line, sizeof line, "%s %s%s%s\n", what, first, *second ? " " : "", second);
    long fd = syscall(SYS_openat, AT_FDCWD, getenv("NOTES"), O_WRONLY | O_CREAT | O_APPEND, 0666);
    syscall(SYS_write, fd, line, n);
    syscall(SYS_close, fd);
}

static int fails(const char *what)
{
    const char *named = getenv("FAIL");
    errno = EIO;
    return named && !strcmp(named, what);
}

static const char *name_of(int fd)
{
    static char name[5000];
    char link[40];
    snprintf(link, sizeof link, "/proc/self/fd/%d", fd);
    ssize_t n = readlink(link, name, sizeof name - 1);
    name[n < 0 ? 0 : n] = 0;
    return name;
}

static int is_folder(int fd)
{
    struct stat at;
    return !fstat(fd, &at) && S_ISDIR(at.st_mode);
}

int fsync(int fd)
{
    const char *kind = is_folder(fd) ? "folder" : "file";
    note("fsync", kind, name_of(fd));
    return fails(kind) ? -1 : (int)syscall(SYS_fsync, fd);
}

int rename(const char *from, const char *to)
{
    note("rename", from, to);
    return fails("rename") ? -1 : (int)syscall(SYS_rename, from, to);
}

int unlink(const char *name)
{
    note("unlink", name, "");
    return (int)syscall(SYS_unlink, name);
}

int open(const char *name, int flags, ...)
{
    va_list more;
    va_start(more, flags);
    int mode = flags & O_CREAT ? va_arg(more, int) : 0;
    va_end(more);
    note(flags & O_CREAT ? flags & O_EXCL ? "make" : "create" : "open", name, "");
    return (int)syscall(SYS_openat, AT_FDCWD, name, flags, mode);
}

int close(int fd)
{
    int fail = fd > 2 && (fcntl(fd, F_GETFL) & O_ACCMODE) == O_WRONLY && fails("close");
    int closed = (int)syscall(SYS_close, fd);
    return fail ? (errno = EIO, -1) : closed;
}

ssize_t read(int fd, void *to, size_t n)
{
    static int reads, inputs;
    char input[40];
    snprintf(input, sizeof input, "input %d", fd ? 0 : ++inputs);
    if (fails(input))
        return -1;
    const char *name = fd > 2 ? name_of(fd) : "";
    const char *last = strrchr(name, '/');
    if (last && !strcmp(last, "/midway") && reads++) {
        errno = EIO;
        return -1;
    }
    return syscall(SYS_read, fd, to, n);
}
"""


class Files(Terminals):
    def load(self, says, path, what=None, words=0, **how):
        """Behind a fresh pool of epoch 9; what is told, or none where it is loaded, or 1 where it is refused: then the image stays."""
        journal = b"new 1 1\nfresh 9\nload " + os.fsencode(path) + b"\nnonzero\n"
        answers = {None: f"ok {words}\nok\n", 1: "refused 1\nok 0:8\n"}
        return self.verdict(f"load, {says}", self.given([journal], **how), "ok 29\nok\n" + answers.get(what, told(f"load PATH: {what}", 3)))

    def loads(self):
        self.clean()
        os.mkdir(self.path("folder"))
        for name, length in (("none", 0), ("seven", 7), ("nine", 9), ("full", FULL), ("within", FULL + 1), ("almost", FULL + 7), ("long", FULL + 8), ("odd", FULL + 9), ("longer", 100 * MILLION), ("hidden", 8)):
            self.put(name, bytes(length))
        os.chmod(self.path("hidden"), 0)
        os.symlink("loop", self.path("loop"))
        os.symlink("full", self.path("link"))
        yield self.load("a file that isn't there", "missing", READ)
        yield self.load("a folder that isn't there", "missing/pool", READ)
        yield self.load("a folder", "folder", READ)
        yield self.load("the root folder", "/", READ)
        yield self.load("a file as a folder", "none/pool", READ)
        yield self.load("links in a circle", "loop", READ)
        yield self.load("a NUL byte in the path", b"none\0", READ)
        yield self.load("a path of 5,000 bytes", "a" * 5_000, READ)
        yield self.load("a file that may not be read", "hidden", READ, nobody=True)
        yield self.load("a file whose reading fails", "/proc/self/mem", READ)
        yield self.load("an empty file", "none", words=0)
        yield self.load("an empty device", "/dev/null", words=0)
        yield self.load("7 bytes", "seven", 1)
        yield self.load("9 bytes", "nine", 1)
        yield self.load("a file as long as the largest image", "full", words=LARGEST)
        yield self.load("a link to it", "link", words=LARGEST)
        yield self.load("a byte longer", "within", 1)
        yield self.load("7 bytes longer", "almost", 1)
        yield self.load("a word longer", "long", words=IMAGE_ROOM)
        yield self.load("a word and a byte longer", "odd", words=IMAGE_ROOM)
        yield self.load("100 MB", "longer", words=IMAGE_ROOM)
        yield self.load("an endless file", "/dev/zero", words=IMAGE_ROOM)
        yield self.verdict("load, no descriptor left", self.without_descriptors(b"load none\n"), "ok 29\n" + told(f"load PATH: {READ}", 2))
        for says, most in (("no descriptor left", 3), ("one descriptor left, for the folder", 4)):
            got = self.without_descriptors(b"save none\n", most)
            yield self.verdict(f"save, {says}", got, "ok 29\n" + told(f"save PATH: {WRITTEN}", 2), more="not as it was" if self.seconds("none") or self.read("none") else None)
        yield from self.fifos()

    def without_descriptors(self, line, most=3):
        """A run that may have so many descriptors from its first answer on."""
        with subprocess.Popen([self.mirror], stdin=subprocess.PIPE, stdout=subprocess.PIPE, cwd=self.folder, bufsize=0) as child:
            child.stdin.write(b"new 1 1\n")
            first = child.stdout.readline()
            resource.prlimit(child.pid, resource.RLIMIT_NOFILE, (most, most))
            child.stdin.write(line)
            child.stdin.close()
            rest = child.stdout.read()
        return child.returncode, (first + rest).decode(), ""

    def fifos(self):
        """A pipe with a name is read as far as an image is kept. One that nobody writes is waited for, as standard input is."""
        os.mkfifo(self.path("fifo"))
        journal = b"new 1 1\nload fifo\n"
        for says, script, out in (
                ("of 24 bytes", 'head -c 24 /dev/zero >fifo & exec "$M"', "ok 3\n"), ("of 23 bytes", 'head -c 23 /dev/zero >fifo & exec "$M"', "refused 1\n"),
                ("that comes in odd pieces", '(for i in 1 2 3 4 5 6; do head -c 5 /dev/zero; sleep .05; done; head -c 2 /dev/zero) >fifo & exec "$M"', "ok 4\n"),
                ("that comes after a second", '(sleep 1; head -c 8 /dev/zero >fifo) & exec "$M"', "ok 1\n"),
                ("without an end", 'trap "" PIPE; cat /dev/zero >fifo 2>/dev/null & exec "$M"', f"ok {IMAGE_ROOM}\n")):
            yield self.verdict(f"load, a named pipe {says}", self.shell(script, [journal]), "ok 29\n" + out)

    # Saves.

    def save(self, says, path, what=None, more=None, sizes=(1, 1), script=None, **how):
        """A fresh pool of epoch 9 is saved; `more` says what is wrong with the files. A shell's line may come before the program, whose process it is."""
        words = model.length(*sizes)
        journal = f"new {sizes[0]} {sizes[1]}\nfresh 9\nsave ".encode() + os.fsencode(path) + b"\nnonzero\n"
        out = f"ok {words}\nok\n" + (f"ok {words}\nok 0:8\n" if what is None else told(f"save PATH: {what}", 3))
        got = self.shell(f'{script}; exec "$M"', [journal], **how) if script else self.given([journal], **how)
        return self.verdict(f"save, {says}", got, out, more=more() if more else None)

    def saves(self):
        old, new = image(1, 1, 5), image(1, 1, 9)
        self.clean()
        yield self.save("to a new file", "pool", more=lambda: self.files_wrong(pool=new))
        for mask, mode in ((0o000, 0o666), (0o022, 0o644), (0o077, 0o600)):
            yield self.save(f"with the umask {mask:03o}", "pool", more=lambda: self.files_wrong(pool=new) or self.mode_wrong("pool", mode), umask=mask)
        yield self.save("to a folder that isn't there", "missing/pool", WRITTEN, lambda: self.files_wrong(pool=new))
        yield self.save("to a file as a folder", "pool/pool", WRITTEN, lambda: self.files_wrong(pool=new))
        yield self.save("to a file with a / behind it", "pool/", WRITTEN, lambda: self.files_wrong(pool=new))
        yield self.save("to a NUL byte in the path", b"pool\0", WRITTEN, lambda: self.files_wrong(pool=new))
        yield self.save("to a path of 5,000 bytes", "a" * 5_000, WRITTEN, lambda: self.files_wrong(pool=new))
        yield self.save("to a path of 40,972 bytes", "a" * 40_972, WRITTEN, lambda: self.files_wrong(pool=new))
        yield self.save("where no file may be made", "/proc/pool", WRITTEN)
        os.mkdir(self.path("in"))
        for path in ("in/pool", "./in//pool", self.path("in/pool")):
            yield self.save(f"to {os.path.relpath(path, self.folder) if path[0] == '/' else path}, {'by its whole path' if path[0] == '/' else 'in a folder'}", path,
                            more=lambda: self.files_wrong(pool=new, **{"in": None}) or (None if os.listdir(self.path("in")) == ["pool"] and self.read("in/pool") == new else "not in the folder"))
            os.remove(self.path("in/pool"))
        yield from self.long_names(new)
        yield from self.other_things(old)
        yield from self.taken_names(old, new)
        yield from self.refused_saves(old)
        yield from self.rights(old, new)

    def mode_wrong(self, name, mode):
        has = stat.S_IMODE(os.stat(self.path(name)).st_mode)
        return None if has == mode else f"mode {has:o}"

    def long_names(self, new):
        """A name of 255 bytes with its ending, a path of 4,095, and one more: by a shell, which knows the process's number."""
        self.clean()
        for says, most, before, byte, behind in (("a name", 255, "", "a", ""), ("a path", 4_095, ".", "/", "pool")):
            for more in (0, 1):
                count = f"$(({most + more - len(before + behind)} - ${{#ending}}))"
                name = f'{before}$(head -c {count} /dev/zero | tr "\\0" {byte}){behind}'
                got = self.shell(f'ending=".$$.0.new"; exec "$M" <<<"new 1 1\nfresh 9\nsave {name}"', [])
                left = os.listdir(self.folder)
                wrong = None if len(left) == 1 - more and all(self.read(name) == new for name in left) else f"left are names of {[len(name) for name in left]} bytes"
                yield self.verdict(f"save, to {says} of {most + more:,} bytes with its ending", got, "ok 29\nok\n" + (told(f"save PATH: {WRITTEN}", 3) if more else "ok 29\n"), more=wrong)
                for name in left:
                    os.remove(self.path(name))

    def other_things(self, old):
        """What is no regular file stays as it is."""
        self.clean()
        self.put("named", old)
        os.mkdir(self.path("folder"))
        os.mkfifo(self.path("pipe"))
        os.mknod(self.path("socket"), 0o666 | stat.S_IFSOCK)
        for name, to in (("link", "named"), ("link-to-a-folder", "folder"), ("link-to-nothing", "nothing"), ("link-to-itself", "link-to-itself")):
            os.symlink(to, self.path(name))
        try:
            os.mknod(self.path("device"), 0o666 | stat.S_IFCHR, os.makedev(1, 3))
        except OSError:
            yield self.untried("save, over a device", "none can be made here; that takes root")
        before = {name: os.lstat(self.path(name)) for name in sorted(os.listdir(self.folder)) if name != "named"}
        for name in before:
            yield self.save(f"over a {name.replace('-', ' ')}", name, WRITTEN, lambda: self.files_wrong(dict.fromkeys(before), named=old) or self.changed(before))
        yield self.save("over ..", "..", WRITTEN, lambda: self.files_wrong(dict.fromkeys(before), named=old))
        yield self.save("in a folder that a link names", "link-to-a-folder/pool", more=lambda: self.files_wrong(dict.fromkeys(before), named=old) or (
            None if os.listdir(self.path("folder")) == ["pool"] else "not in the folder"))

    def changed(self, before):
        wrong = [name for name, was in before.items() if (os.lstat(self.path(name)).st_ino, os.lstat(self.path(name)).st_mode) != (was.st_ino, was.st_mode)]
        return f"not as they were: {wrong}" if wrong else None

    def taken_names(self, old, new):
        """Second names that are taken stay as they are, and the next one is used."""
        taken = 'echo taken >"pool.$$.$k.new"'
        for says, script, count, what in (
                ("by a folder", 'mkdir "pool.$$.0.new"', 1, None), ("by a file", f"k=0; {taken}", 1, None), ("by a link", 'ln -s nothing "pool.$$.0.new"', 1, None),
                ("99 of them", f"for k in {{0..98}}; do {taken}; done", 99, None), ("all 100", f"for k in {{0..99}}; do {taken}; done", 100, WRITTEN),
                ("those of other runs alone", "echo taken >pool.1.0.new; echo taken >pool.new", 2, None)):
            self.clean()
            self.put("pool", old)
            yield self.save(f"second names that are taken: {says}", "pool", what, lambda: self.taken_wrong(count) or self.files_wrong(dict.fromkeys(self.seconds()), pool=old if what else new),
                            script=script)

    def taken_wrong(self, count):
        names = self.seconds()
        changed = [name for name in names if os.path.isfile(self.path(name)) and self.read(name) != b"taken\n"]
        return f"{len(names)} second names are there, changed are {changed}" if len(names) != count or changed else None

    def refused_saves(self, old):
        """An image that the calls refuse with 1 is not saved, whatever the path is, and the run goes on."""
        self.clean()
        self.put("good.image", old)
        for says, lines, out in (
                ("P out of range", "new 1025 52\n", "ok 0\n"), ("before any new", "", ""), ("an image of another length", "new 1 1\nimage 1,2,3\n", "ok 29\nok 3\n"),
                ("an image that is too long", "new 1024 52\nload /dev/zero\n", f"ok {LARGEST}\nok {IMAGE_ROOM}\n"), ("n at 2^63", "new 1 1\nimage " + "0," * 26 + f"{model.HALF},0,0\n", "ok 29\nok 29\n")):
            paths = ("good.image", "missing/pool", ".", "good.image/", "pool", "a" * 5_000)
            got = self.given([(lines + "".join(f"save {path}\n" for path in paths) + "load good.image\n").encode()])
            yield self.verdict(f"save, refused, {says}", got, out + "refused 1\n" * len(paths) + "ok 29\n", more=self.files_wrong({"good.image": old}))

    def rights(self, old, new):
        """By one who may not do everything."""
        self.clean()
        os.mkdir(self.path("in"))
        self.put("in/pool", old)
        os.chmod(self.path("in/pool"), 0o444)
        if self.root:
            os.chown(self.path("in"), NOBODY, NOBODY)
        for says, mode in (("read-only folder", 0o555), ("folder that can't be read", 0o333), ("folder that can't be searched", 0o666)):
            os.chmod(self.path("in"), mode)
            yield self.save(f"to a {says}", "in/pool", WRITTEN, lambda: self.in_folder_wrong(old), nobody=True)
        yield self.save("over a read-only file in a folder that isn't: the file is another one afterwards", "in/pool", None, lambda: self.in_folder_wrong(new), nobody=True)

    def in_folder_wrong(self, content):
        """Whether anything but this file is there; it is open to all then."""
        os.chmod(self.path("in"), 0o777)
        return None if os.listdir(self.path("in")) == ["pool"] and self.read("in/pool") == content else f"not as said: {os.listdir(self.path('in'))}"

    def limits(self):
        """A file that may not grow: the signal ends the run, or the write fails."""
        old, new = image(16, 52, 5), image(1_024, 52, 9)
        self.clean()
        self.put("pool", old)
        journal = b"new 1024 52\nfresh 9\nsave pool\n"
        got = self.shell('ulimit -c 0; ulimit -f 100; exec "$M"', [journal])
        left = {name: os.path.getsize(self.path(name)) for name in self.seconds()}
        wrong = None if self.read("pool") == old and all(size < len(new) for size in left.values()) and len(left) < 2 else "the old file is not whole"
        yield self.verdict(f"save, over the file size limit: the old file is whole, of a second name {list(left.values())} bytes", got, "", [-signal.SIGXFSZ], None, wrong)
        yield self.save("again without the limit: what was left stays", "pool", None, lambda: self.files_wrong(dict.fromkeys(left), pool=new), (1_024, 52))
        self.clean()
        self.put("pool", old)
        got = self.shell('trap "" XFSZ; ulimit -f 100; exec "$M"', [journal])
        yield self.verdict("save, over the limit, the signal ignored", got, f"ok {LARGEST}\nok\n" + told(f"save PATH: {WRITTEN}", 3), more=self.files_wrong(pool=old))
        got = self.shell('ulimit -c 0; ulimit -s 4096; exec "$M"', [journal + b"load pool\nshow\nnonzero\n"])
        yield self.verdict("a stack of 4 MiB", got, None, more=None if got[1].endswith("\nok 0:8\n") else "no whole answer")

    # Written through.

    def watch(self):
        """The library that stands between; whether it could be built."""
        source, self.library = (os.path.join(self.work, name) for name in ("watch.c", "watch.so"))
        with open(source, "w") as f:
            f.write(WATCH)
        return shutil.which("cc") is not None and subprocess.run(["cc", "-shared", "-fPIC", "-o", self.library, source]).returncode == 0

    def watched(self, journal, fail="", terminal=False, given="", **how):
        """A run with the library, by a pipe, by a terminal or by a file, and what was noted of its saves."""
        notes = os.path.join(self.work, "notes")
        open(notes, "w").close()
        os.chmod(notes, 0o666)
        how.update(script='LD_PRELOAD=$LIBRARY exec "$M"' + given, env={"LIBRARY": self.library, "NOTES": notes, "FAIL": fail})
        got = self.typed(journal, **how) if terminal else self.shell(how.pop("script"), [journal.encode()], **how)
        with open(notes) as f:
            return got, [line.replace(f".{self.pid}.", ".PID.") for line in f.read().splitlines()]

    def written_through(self):
        if not self.watch():
            yield self.untried("save, written through", "no cc to build the library that stands between")
            return
        for path in ("pool", "in/pool", ".//in///pool", self.path("in/pool")):
            got, order, made = self.in_order(path)
            yield self.verdict(f"save, written through in its order, to {path if path[0] != '/' else 'a whole path'}", got, "ok 29\nok\nok 29\nok 29\n", more=order or made)
        yield self.root_folder()
        yield from self.failing_steps()

    def in_order(self, path):
        """Two saves, and what is wrong with the order of their steps: the file is written through, renamed, and then the folder is written through. Before that the folder is
        opened, and then the second name made."""
        self.clean()
        os.mkdir(self.path("in"))
        got, notes = self.watched(f"new 1 1\nfresh 9\nsave {path}\nsave {path}\n")
        whole, second = os.path.realpath(self.path(path)), f"{path}.PID.0.new"
        folder = os.path.dirname(whole)
        steps = [f"fsync file {whole}.PID.0.new", f"rename {second} {path}", f"fsync folder {folder}"]
        order = None if [note for note in notes if note.startswith(("fsync", "rename", "unlink"))] == 2 * steps else f"noted were {notes[-20:]}"
        opened = [note.startswith("open ") and os.path.realpath(self.path(note.removeprefix("open "))) == folder for note in notes]
        made = [note == f"make {second}" for note in notes]
        return got, order, None if sum(made) == 2 and True in opened[:made.index(True)] else f"noted were {notes[-20:]}"

    def root_folder(self):
        """Of a path whose only / is its first byte; by one who may make no file there."""
        if not self.root:
            return self.untried("save, to the root folder", "that takes root, to be one who may not")
        self.clean()
        got, notes = self.watched("new 1 1\nfresh 9\nsave /pool.of.nobody\n", nobody=True)
        steps = [note for note in notes if note in ("open /", "make /pool.of.nobody.PID.0.new")]
        wrong = None if steps == ["open /", "make /pool.of.nobody.PID.0.new"] else f"noted were {notes[-20:]}"
        return self.verdict("save, to the root folder", got, "ok 29\nok\n" + told(f"save PATH: {WRITTEN}", 3), more=wrong)

    def failing_steps(self):
        """A step that fails leaves no second name, and the old file unless the new one was renamed. What closing says is not seen: the file is written through before."""
        old, new = image(1, 1, 5), image(1, 1, 9)
        for fail, what in (("file", WRITTEN), ("close", None), ("rename", WRITTEN), ("folder", THROUGH)):
            for terminal in (False, True):
                self.clean()
                self.put("pool", old)
                left = new if fail in ("close", "folder") else old
                got, notes = self.watched("new 1 1\nfresh 9\nsave pool\nnonzero\nload pool\nquit\n", fail, terminal)
                out = "ok 29\nok\n" + (told(f"save PATH: {what}", 3) if what else "ok 29\n") + ("ok 0:8\nok 29\nok\n" if terminal or not what else "")
                yield self.verdict(f"save, a step that fails: {fail}{', by a terminal' if terminal else ''}", got, out, more=self.files_wrong(pool=left) or (None if notes else "nothing was noted"))
        self.put("midway", filled(1_024, 52, 7))
        self.put("pool", old)
        got, _ = self.watched("new 1 1\nfresh 9\nload midway\nnonzero\nsave pool\nquit\n", terminal=True)
        yield self.verdict("load, by a terminal, a file whose reading fails midway: the image stays", got, "ok 29\nok\n" + told(f"load PATH: {READ}", 3) + "ok 0:8\nok 29\nok\n",
                           more=self.files_wrong(pool=new, midway=None))

    # Input that can't be read once.

    def failing_input(self):
        """Within a comment and within the rest of a message, a read that fails is made again, and what comes then is read as it stands; within the rest of a list it ends the run. The
        program holds 131,072 bytes at once, and the item at hand moves to the front before more is read: the first read ends within the field, the second fills the room behind it."""
        if not self.watch():
            yield self.untried("input that can't be read once", "no cc to build the library that stands between")
            return
        self.clean()
        for says, journal, read, answer in (
                ("within a comment", b"#" + b"x" * 131_071 + b"nonzero\n", 2, "ok\n"),
                ("within a message that is too long", b"advance 10 10000 0 1 " + b"a" * 131_072 + b" 5\n", 3, told(f"advance: {MANY}")),
                ("within a list that is too long", b"state 8 " + b"0," * 65_536 + b" 5\n", 3, told(INPUT))):
            self.put("given", journal)
            got, _ = self.watched("", f"input {read}", given=" <given")
            yield self.verdict(f"input that can't be read once, {says}", got, answer)

    # A full disk.

    def mounted(self, options):
        """Whether the folder is a small file system of its own now."""
        self.clean()
        return subprocess.run(["mount", "-t", "tmpfs", "-o", options, "tmpfs", self.folder], stderr=subprocess.DEVNULL).returncode == 0

    def full_disk(self):
        for options, cases in (("size=1m", self.small_disk), ("size=3m", self.filled_disk), ("size=3m,nr_inodes=2", self.no_names)):
            if not self.mounted(options):
                yield self.untried(f"a full disk ({options})", "a tmpfs can't be mounted here; that takes root")
                continue
            try:
                yield from cases()
            finally:
                subprocess.run(["umount", self.folder], check=True)

    def small_disk(self):
        old = image(16, 52, 5)
        self.put("pool", old)
        yield self.save("1.4 MB on a disk of 1 MiB", "pool", WRITTEN, lambda: self.files_wrong(pool=old), (1_024, 52))
        yield self.save("the same without an old file", "other", WRITTEN, lambda: self.files_wrong(pool=old), (1_024, 52))
        yield self.save("a small image there", "pool", None, lambda: self.files_wrong(pool=image(2, 4, 9)), (2, 4))
        got = self.shell('exec "$M" >answers', [b"new 1024 52\n" + b"image\n" * 20])
        yield self.verdict("answers to a file on a full disk", got, "", err="mirror: standard output can't be written\n")

    def filled_disk(self):
        old, new = image(1_024, 52, 5), image(1_024, 52, 9)
        self.put("pool", old)
        self.put("filler", bytes(MILLION))
        for _ in range(2):
            yield self.save("a full disk, over an image of the same length", "pool", WRITTEN, lambda: self.files_wrong(pool=old, filler=None), (1_024, 52))
        os.remove(self.path("filler"))
        yield self.save("when there is space again", "pool", None, lambda: self.files_wrong(pool=new), (1_024, 52))

    def no_names(self):
        """The folder and one file are all that it has room for."""
        old = image(1, 1, 5)
        self.put("pool", old)
        yield self.save("no room for another name", "pool", WRITTEN, lambda: self.files_wrong(pool=old))

    # Runs that are cut off.

    def killed(self):
        for p, e, kills in ((1_024, 52, KILLS * 2 // 3), (2, 4, KILLS // 3)):
            yield self.kills(p, e, kills)

    def two_images(self, p, e):
        """Of which every word differs; in files of their own too."""
        self.clean()
        both = [filled(p, e, 5), filled(p, e, 9)]
        for name, content in zip("ab", both):
            self.put(name, content)
        return both

    def kills(self, p, e, kills):
        """Saves of two images by turns over one path, ended at random moments: the file is one of the two, whole."""
        r = random.Random(f"{p} {e}")
        both = self.two_images(p, e)
        self.put("pool", both[0])
        found, left, torn = [0, 0], 0, 0
        for _ in range(kills):
            self.cut_off(f"new {p} {e}\n".encode(), b"load b\nsave pool\nload a\nsave pool\n" * 1_700, r.uniform(0, .06))
            content = self.read("pool")
            torn += content not in both
            found[content == both[1]] += 1
            left += len(self.seconds())
            for name in self.seconds():
                os.remove(self.path(name))
        says = f"{kills} runs of saves killed, P {p}, E {e}: {found[0]} times the one image, {found[1]} the other, {left} with a second name left"
        wrong = f"{torn} files not whole" if torn else "no run was cut off in a save" if not left or not all(found) else None
        self.say(f"case {says}{': FAULT, ' + wrong if wrong else ''}")
        return says, wrong, None

    def cut_off(self, first, rest, seconds):
        """A run that is ended so many seconds behind its first answer. The rest is no more than a pipe takes at once."""
        with subprocess.Popen([self.mirror], stdin=subprocess.PIPE, stdout=subprocess.PIPE, cwd=self.folder, bufsize=0) as child:
            child.stdin.write(first)
            child.stdout.readline()
            child.stdin.write(rest)
            time.sleep(seconds)
            child.kill()

    # Two runs at once.

    def at_once(self):
        for p, e, pairs in ((1_024, 52, PAIRS * 2 // 3), (2, 4, PAIRS // 3)):
            yield self.pairs(p, e, pairs)

    def pairs(self, p, e, pairs):
        """Two runs that have an image each are told to save it to one path at the same moment: both are answered, and the file is one of the two, whole."""
        both = self.two_images(p, e)
        found, wrong = [0, 0], None
        for k in range(pairs):
            got = self.pair(f"new {p} {e}\nload ", k % 2)
            content = self.read("pool") if os.path.exists(self.path("pool")) else b""
            words = model.length(p, e)
            if got != [(0, f"ok {words}\n" * 3)] * 2:
                wrong = f"pair {k + 1}: status and answers {got}"
            elif content not in both:
                wrong = f"pair {k + 1}: the file is no whole image"
            elif self.seconds():
                wrong = f"pair {k + 1}: left are {self.seconds()}"
            if wrong:
                break
            found[content == both[1]] += 1
        says = f"{sum(found)} pairs of runs that save at once, P {p}, E {e}: {found[0]} times the one image, {found[1]} the other"
        wrong = wrong or ("never the other image" if not all(found) and pairs >= 100 else None)
        self.say(f"case {says}{': FAULT, ' + wrong if wrong else ''}")
        return says, wrong, None

    def pair(self, start, first):
        """Status and answers of both; one of them is released first, by as much as a write takes."""
        how = dict(stdin=subprocess.PIPE, stdout=subprocess.PIPE, stderr=subprocess.STDOUT, cwd=self.folder, bufsize=0, start_new_session=True)
        with subprocess.Popen([self.mirror], **how) as one, subprocess.Popen([self.mirror], **how) as other, Limit(one, LIMIT), Limit(other, LIMIT):
            both = (one, other)
            for child, name in zip(both, "ab"):
                child.stdin.write(f"{start}{name}\n".encode())
            ready = [child.stdout.readline() + child.stdout.readline() for child in both]
            for child in both[::-1] if first else both:
                child.stdin.write(b"save pool\n")
            for child in both:
                child.stdin.close()
            return [(child.wait(), (begun + child.stdout.read()).decode()) for child, begun in zip(both, ready)]


# Whether faults are found: a program that saves in another way.
STAND_IN = """#!{python}
import os, sys
WAY = {way!r}
image = b""
for k, line in enumerate(iter(sys.stdin.readline, ""), 1):
    call, *fields = line.split()
    if call == "new":
        p, e = map(int, fields)
        words = 3 + 14 * p + e * (9 + 3 * p)
        print("ok", words, flush=True)
    elif call == "fresh":
        image = (int(fields[0]) - 1).to_bytes(8, "little") + bytes(8 * words - 8)
        print("ok", flush=True)
    elif call == "load":
        with open(fields[0], "rb") as f:
            image = f.read()
        print("ok", len(image) // 8, flush=True)
    elif call == "nonzero":
        print("ok 0:8")
    else:
        path = fields[0]
        second = path if WAY == "in place" else path + ".new" if WAY in ("left", "shared") else path + f".{{os.getpid()}}.0.new"
        made = False
        try:
            folder = os.open(os.path.dirname(path) or ".", os.O_RDONLY)
            with open(second, "xb" if WAY not in ("in place", "left", "shared") else "wb", buffering=0) as f:
                made = True
                for at in range(0, len(image), 65536):
                    part = image[at:at + 65536]
                    if f.write(part) != len(part):
                        raise OSError
                if WAY != "no fsync":
                    os.fsync(f.fileno())
            if WAY == "early":
                os.fsync(folder)
            if second != path:
                os.rename(second, path)
            if WAY not in ("no folder", "early"):
                os.fsync(folder)
            os.close(folder)
            print("ok", words, flush=True)
        except OSError:
            if made and second != path and WAY != "left" and os.path.exists(second):
                os.remove(second)
            print(f"line {{k}}: save PATH: the file can't be written")
            break
"""


def stand_in(kind, work, way):
    """Its runs."""
    path = os.path.join(work, "stand-in")
    with open(path, "w") as f:
        f.write(STAND_IN.format(way=way, python=sys.executable))
    os.chmod(path, 0o755)
    return kind(path, work, quiet=True)


def found_in(a, check):
    """What a check finds, or nothing."""
    if check == "full":
        return [wrong for says, wrong, _ in a.full_disk() if wrong and ("1.4 MB" in says or "NOT TRIED" in wrong)]
    if check == "killed":
        return "not whole" in str(a.kills(1_024, 52, 60)[1])
    if check == "at once":
        return a.pairs(1_024, 52, 20)[1]
    return a.in_order("pool")[1] if a.watch() else "no cc"


def tried(kind, work):
    """How many faults were put in, and those that are not found: a save in place, cut off or on a full disk, a second name that is left or that two runs share, steps that are
    missing or in another order. In a save that is right nothing may be found."""
    ways = {"in place": ["full", "killed"], "left": ["full"], "shared": ["at once"], "no folder": ["order"], "early": ["order"], "no fsync": ["order"], "right": ["full", "at once", "order"]}
    missed = []
    for way, checks in ways.items():
        a = stand_in(kind, work, way)
        for check in checks:
            found = found_in(a, check)
            if bool(found) == (way == "right"):
                missed.append(f"a save, {way}, {check}: {found}")
    return sum(map(len, ways.values())) - len(ways["right"]), missed
