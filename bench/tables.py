"""The tables, as markdown."""
import statistics
from typing import Callable, NamedTuple

LIMIT = 1.05        # of an earlier library's time


class Form(NamedTuple):
    """How the tables of two sides differ from those of others."""
    sides: list
    mean: Callable      # of the programs' ratios
    counted: dict       # columns of instructions, with the functions that they are of


RUST = Form(["mirror", "Rust"], statistics.mean, {"mirror's instructions": "pool_mirror_*"})
# one program's code can stand well where another's stands badly: 2 and 1/2 have the mean 1
BEFORE = Form(["now", "before"], statistics.geometric_mean,
              {"instructions now": "pool_mirror_*", "before": "before_pool_mirror_*"})


def nanos(n):
    return f"{n:,.0f}" if n >= 100 else f"{n:.1f}"


def times(form):
    return [*(f"{side} ns (median)" for side in form.sides), "ratio", "from .. to"]


def cells(form, row):
    """The columns of `times`."""
    if row.theirs is None:
        return [nanos(row.ours), "-", "-", "-"]
    return [nanos(row.ours), nanos(row.theirs), f"{form.mean(row.ratios):.2f}",
            f"{min(row.ratios):.2f} .. {max(row.ratios):.2f}"]


def show(title, head, lines):
    """A table with names in the first column and numbers in the others; none where it has no lines."""
    if not lines:
        return
    widths = [max(map(len, column)) for column in zip(head, *lines)]
    rule = ["-" * widths[0]] + ["-" * (n - 1) + ":" for n in widths[1:]]
    print(f"{title}\n")
    for first, *rest in [head, rule, *lines]:
        texts = [first.ljust(widths[0])] + [text.rjust(n) for text, n in zip(rest, widths[1:])]
        print("| " + " | ".join(texts) + " |")
    print(flush=True)


def notes(rows, passing):
    """What is to be said of the Rust; how the mirror's time grows with the epochs that have passed."""
    for note in dict.fromkeys(row.note for row in rows if row.note):
        noted = [row for row in rows if row.note == note]
        once = [f" ({row.once:,} ns in the call that was compared)" for row in noted if row.theirs is None]
        print(f"- {'; '.join(row.name for row in noted)}: {note}{''.join(once)}")
    if passing:
        print(f"- the mirror's advance of 1,000,000 epochs over its advance of 52, in turns: "
              f"{min(passing):.2f} .. {max(passing):.2f}")
    print(flush=True)


def bounds(title, measured):
    show(title, ["words", "ns (median)"], [[name, nanos(n)] for name, n in measured])


def calls(title, form, rows, counts):
    """`counts` are the numbers of each column of instructions, by the rows' names."""
    counted = [[f"{column[row.name]:,}" if row.name in column else "-" for column in counts] for row in rows]
    show(title, ["call and case", *times(form), *form.counted],
         [[row.name, *cells(form, row), *numbers] for row, numbers in zip(rows, counted)])


def growth(title, form, size, rows):
    """`size` names what grows."""
    show(title, ["call and case", size, *times(form)],
         [[row.name, f"{row.size:,}", *cells(form, row)] for row in rows])


def label(table, row):
    size = "" if row.size is None else f" at {row.size}"
    return f"{row.name}{size} (table {table})"


def highest(tables):
    """What the rows of tables 1 to 4 come to, beside an earlier library."""
    ratios = {label(k, row): BEFORE.mean(row.ratios) for k, rows in enumerate(tables, 1) for row in rows}
    top = max(ratios, key=ratios.get)
    above = [f"{name}: {ratio:.3f}" for name, ratio in ratios.items() if ratio > LIMIT]
    print(f"highest ratio: {ratios[top]:.3f}, {top}; above {LIMIT}: {len(above)} of {len(ratios)} cases", *above, sep="\n- ")
