"""The table's group with positions' states."""
import cases_state
from by_hand import say_cases


def states(t):
    """Positions' states, before there is a pool: each sentence of document 01's item 6, and each refusal at its edge, under other settings too."""
    say_cases(t, cases_state.STATES)
