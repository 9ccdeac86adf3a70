"""The table's group with splits."""
import cases_split
from by_hand import say_cases

FIRST = 3       # lines of each case


def splits(t):
    """Splits of a reward among clients: each sentence of document 02's request [1], and each refusal at its edge."""
    say_cases(t, [case._replace(journal="\n".join(case.journal.split("\n")[:FIRST])) for case in cases_split.SPLITS])
