"""The table's group with `show`."""
import cases_show
from by_hand import say_cases


def tables(t):
    """The pool as a table: empty and filled, gaps, signs, wide numbers, rings that are not full, full, and written over; refusal 1."""
    say_cases(t, cases_show.CASES)
