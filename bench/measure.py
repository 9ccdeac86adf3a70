"""Runs the programs: times of both sides, instructions of a library."""
import os
import shutil
import statistics
import subprocess
import sys
import tempfile
from typing import NamedTuple, Optional

# Callgrind counts every byte that a `rep stosb` writes; with this, glibc's memset uses none.
TUNABLES = {"GLIBC_TUNABLES": f"glibc.cpu.x86_rep_stosb_threshold={2**63 - 1}"}


class Row(NamedTuple):
    """A case. Nanoseconds are means of the programs' medians."""
    name: str
    size: Optional[int]         # what grows; None where nothing does
    ours: float
    theirs: Optional[float]     # None where the Rust is not timed
    ratios: list                # one for each program
    once: int                   # nanoseconds of the other side in the call that was compared
    note: str


def lines(command, **given):
    """What a program writes. Where it fails, it has said why."""
    done = subprocess.run(command, stdout=subprocess.PIPE, text=True, **given)
    if done.returncode != 0:
        raise SystemExit(1)
    return done.stdout.splitlines()


def row(runs):
    """Of a case's lines, one from each program."""
    names, sizes, ours, theirs, ratios, once, notes = zip(*(line.split("\t") for line in runs))
    theirs = [float(n) for n in theirs if n]
    return Row(names[0], int(sizes[0]) if sizes[0] else None, statistics.mean(float(n) for n in ours),
               statistics.mean(theirs) if theirs else None,
               [float(n) for n in ratios if n], int(once[0]), notes[0])


def times(programs, table, text):
    """Of the table's cases that have the text in their name. In all but the first eight programs, if there are more, the other side is run first."""
    runs = [lines([program, "time", table, text, "mirror" if k < 8 else "other"]) for k, program in enumerate(programs)]
    return [row(case) for case in zip(*runs)]


def passing(programs):
    """The mirror's advance of 1,000,000 epochs over its advance of 52, one for each program."""
    return [float(lines([program, "passing"])[0]) for program in programs]


def bounds(programs):
    """What words alone cost: names and nanoseconds."""
    runs = zip(*(lines([program, "bounds"]) for program in programs))
    named = [[line.split("\t") for line in run] for run in runs]
    return [(run[0][0], statistics.mean(float(n) for _, n in run)) for run in named]


def total(path):
    with open(path) as dump:
        return next(int(line.split()[1]) for line in dump if line.startswith("totals:"))


def instructions(program, table, text, functions):
    """Of a library's call in each case, by the case's name; none without valgrind. `functions` are the library's."""
    if shutil.which("valgrind") is None:
        print("bench: no valgrind, instructions are not counted", file=sys.stderr)
        return {}
    with tempfile.TemporaryDirectory() as folder:
        dump = os.path.join(folder, "dump")
        names = lines(["valgrind", "--tool=callgrind", "--quiet", f"--toggle-collect={functions}",
                       "--dump-after=driver::count", f"--callgrind-out-file={dump}",
                       program, "count", table, text, "mirror"], env={**os.environ, **TUNABLES})
        counts = {name: total(f"{dump}.{k}") for k, name in enumerate(names, 1)}
    if 0 in counts.values():
        raise SystemExit(f"bench: callgrind has not found {functions}")
    return counts
