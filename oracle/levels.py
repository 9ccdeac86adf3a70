"""The levels: what a level's journals are made of, and how often each list comes. A level has the calls of those before it too."""
from generate import Generator
from payments import Payments
from stakers import Stakers

LEVELS = {
    "watch": (Generator, [(50, Generator.grown_list), (40, Generator.made_up_list), (4, Generator.sum_at_the_edge),
                          (8, Generator.drained_list), (9, Generator.other_image), (2, Generator.other_sizes)]),
    "pay": (Payments, [(18, Payments.grown_list), (9, Payments.made_up_list), (2, Payments.sum_at_the_edge), (4, Payments.drained_list),
                       (3, Payments.other_image), (1, Payments.other_sizes), (40, Payments.paid_list), (9, Payments.slot_at_the_edge),
                       (9, Payments.parts_at_the_edge), (12, Payments.event_at_the_edge), (9, Payments.start_at_the_edge)]),
    "operate": (Stakers, [(12, Stakers.grown_list), (6, Stakers.made_up_list), (1, Stakers.sum_at_the_edge), (3, Stakers.drained_list),
                          (3, Stakers.other_image), (1, Stakers.other_sizes), (14, Stakers.paid_list), (2, Stakers.slot_at_the_edge), (2, Stakers.parts_at_the_edge),
                          (3, Stakers.event_at_the_edge), (2, Stakers.start_at_the_edge), (40, Stakers.change_list), (2, Stakers.staking_list)]),
}


def write(journal, level, seed, size, settings, calls, long=True, poolless=True):
    """A journal of at least so many calls on pools of one size, under one epoch length and unlocking length; at will without long lists. Between the
    lists come positions' states and splits, at will none: they need no pool, and so come at every level."""
    kind, lists = LEVELS[level]
    generator = kind(journal, seed, *size, *settings)
    weights, lists = zip(*(pair for pair in lists if long or pair[1] is not Stakers.staking_list))
    while journal.calls < calls:
        generator.r.choices(lists, weights)[0](generator)
        if poolless:
            generator.states.some()
            generator.splits.some()
