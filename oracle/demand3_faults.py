"""Whether demand3.py can fail: lists of calls with the model's answers, and in each a fault put into one answer or into what is deposited and
withdrawn, which it must find."""
import collections
import random

import demand3
import journal
import stakers

SIZES = [(1, 1), (2, 4), (3, 7)]


def written(size, seed, withdraws):
    """The lines of one list, with withdrawals or without, and the answers (none for a comment)."""
    j = journal.Journal()
    stakers.Stakers(j, f"faults {seed}", *size, 604_800, 1).staking_list(withdraws=withdraws)
    lines = [line for line in j.lines if not line.again]
    return lines, [line.answer for line in lines]


class Edited:
    """A list and its answers, and what faults are made of."""

    def __init__(self, lines, answers, size, r):
        self.lines, self.answers, self.r = lines, answers, r
        self.pool = demand3.Pool(*size, [0] * demand3.model.length(*size))
        self.begun = next(i for i, line in enumerate(lines) if line.text.startswith("# " + demand3.START))

    def places(self, name, fits):
        """Lines of this name behind the list's beginning that an image follows."""
        found = range(self.begun, len(self.lines) - 1)
        return [i for i in found if self.lines[i].name() == name and fits(self.answers[i].split(), i)]

    def put(self, at, answer):
        return self.answers[:at] + [answer] + self.answers[at + 1:]

    def comments(self, text):
        """Where such a comment stands."""
        return [i for i, line in enumerate(self.lines) if line.text.startswith("# " + text)]

    def without(self, at):
        """A line left out."""
        self.lines = self.lines[:at] + self.lines[at + 1:]
        return self.answers[:at] + self.answers[at + 1:]

    def drained_for(self, i, amount, last):
        """So much withdrawn ahead of one line and deposited again behind another."""
        for at, text in ((last + 1, demand3.DEPOSIT), (i, demand3.WITHDRAW)):
            self.lines = self.lines[:at] + [journal.Line(f"# {text} {amount}", None, None, None)] + self.lines[at:]
            self.answers = self.answers[:at] + [None] + self.answers[at:]
        return self.answers

    def before(self, i):
        """What is remembered of the list ahead of a line."""
        check = demand3.Check()
        check.journal(self.lines[:i], [a for a in self.answers[:i] if a is not None])
        return check.history

    def accepted(self, fits):
        """Accepted advances that fit: told custody, claimable before and whether anything was withdrawn so far."""
        found = self.places("advance", lambda v, i: v[0] == "ok")
        return [i for i in found if fits(int(self.lines[i].text.split()[3]), self.claimable_before(i), any(at < i for at in self.comments(demand3.WITHDRAW)))]

    def claimable_before(self, i):
        return self.words(max(at for at in range(i) if self.lines[at].name() == "nonzero"))[1]

    def value(self, name, at, fits=lambda values, i: True):
        """A value of an accepted call's answer, one more."""
        found = self.places(name, lambda v, i: v[0] == "ok" and fits(v, i))
        if not found:
            return None
        i = self.r.choice(found)
        values = self.answers[i].split()
        values[at] = str(int(values[at]) + 1)
        return self.put(i, " ".join(values))

    def word(self, change, fits=lambda words: True):
        """An image of which a word is another."""
        found = self.places("nonzero", lambda v, i: fits(self.words(i)))
        if not found:
            return None
        i = self.r.choice(found)
        words = self.words(i)
        change(words)
        return self.put(i, self.nonzero(words))

    def words(self, i):
        return demand3.image_of((self.pool.p, self.pool.e), self.answers[i].split())

    def nonzero(self, words):
        return " ".join(["ok", *(f"{at}:{w}" for at, w in enumerate(words) if w)])

    def bump(self, at):
        return lambda words: words.__setitem__(at, words[at] + 1)

    def beyond(self, found):
        """Of one of these advances set aside raised by one past the larger of custody told and claimable before, and claimable from then on."""
        if not found:
            return None
        i = self.r.choice(found)
        values, custody = self.answers[i].split(), int(self.lines[i].text.split()[3])
        more = max(custody, self.claimable_before(i)) + 1 - self.words(i + 1)[1]
        values[2] = str(int(values[2]) + more)
        self.answers = self.put(i, " ".join(values))
        for at in self.places("nonzero", lambda v, at: at > i):
            words = self.words(at)
            self.answers = self.put(at, self.nonzero([words[0], words[1] + more] + words[2:]))
        return self.answers


class Faults(Edited):
    """Each answers the answers with a fault in them, or none where the list has no place for it."""

    def set_aside(self):
        return self.value("advance", 2)

    def delegators_part(self):
        return self.value("payment", 1)

    def publishers_part(self):
        return self.value("payment", 2)

    def custodys_fall(self):
        return self.value("payment", 6)

    def claimable(self):
        return self.word(self.bump(1))

    def last_epoch(self):
        return self.word(self.bump(0))

    def event_count(self):
        return self.word(self.bump(self.pool.n))

    def event_epoch(self):
        slot = self.r.randrange(self.pool.e)
        return self.word(self.bump(self.pool.event(slot)), lambda words: words[self.pool.n] > slot)

    def events_swapped(self):
        a, b = self.pool.event(0), self.pool.event(self.pool.e - 1)

        def swap(words):
            words[a], words[b] = words[b], words[a]
        return self.word(swap, lambda words: words[a] != words[b] and words[self.pool.n] >= self.pool.e)

    def slot_never_written(self):
        return self.word(self.bump(self.pool.n - 1), lambda words: words[self.pool.n] < self.pool.e)

    def payment_not_counted(self):
        found = self.places("payment", lambda v, i: v[0] == "ok" and int(v[1]) + int(v[2]) > 0)
        return self.put(self.r.choice(found), "refused 17") if found else None

    def refused_within_the_totals(self):
        """The first of the list's payments that is accepted: up to there the stakers drew nothing."""
        found = self.places("payment", lambda v, i: v[0] == "ok" and self.lines[i].text.split()[8] != "-")
        return self.put(found[0], "refused 16") if found else None

    def only_the_epoch_moves(self):
        """An advance that sets last epoch and claimable alone."""
        found = self.places("advance", lambda v, i: v[0] == "ok")
        i = self.r.choice(found)
        before, after = self.words(i - 1 if self.lines[i - 1].name() == "nonzero" else self.begun + 2), self.words(i + 1)
        return self.put(i + 1, self.nonzero(after[:2] + before[2:]))

    def more_than_custody(self):
        return self.beyond(self.accepted(lambda custody, claimable, withdrawn: not withdrawn))

    def more_than_custody_behind_a_withdrawal(self):
        return self.beyond(self.accepted(lambda custody, claimable, withdrawn: withdrawn and claimable <= custody))

    def set_aside_on_a_drained_custody(self):
        return self.beyond(self.accepted(lambda custody, claimable, withdrawn: claimable > custody))

    def deposit_not_counted(self):
        found = self.comments(demand3.DEPOSIT)
        return self.without(self.r.choice(found)) if found else None

    def withdrawal_not_counted(self):
        """One that an advance comes behind."""
        advances = self.accepted(lambda *_: True)
        found = [i for i in self.comments(demand3.WITHDRAW) if advances and i < advances[-1]]
        return self.without(self.r.choice(found)) if found else None

    def payment_of_more_than_the_balance(self):
        """All but one unit of what it takes is withdrawn ahead of it, and deposited again behind its image."""
        found = self.places("payment", lambda v, i: v[0] == "ok" and int(v[6]) > 0)
        if not found:
            return None
        i = self.r.choice(found)
        return self.drained_for(i, self.before(i).balance() - int(self.answers[i].split()[6]) + 1, i + 1)

    def withdrawal_of_more_than_the_balance(self):
        i = self.r.choice(self.places("nonzero", lambda v, i: True)) + 1
        return self.drained_for(i, self.before(i).balance() + 1, i - 1)


FAULTS = [f for f in vars(Faults).values() if callable(f)]


def wrong(lines, answers):
    return demand3.Check().journal(lines, [a for a in answers if a is not None])


def run():
    """How many faults were put in; those that were not found, and those that no list had a place for."""
    tried, missed = collections.Counter(), []
    for size in SIZES:
        for seed in range(4):
            lines, answers = written(size, seed, seed % 2 == 0)
            if found := wrong(lines, answers):
                missed.append(f"a fault where there is none: {found}")
                continue
            for fault in FAULTS:
                faults = Faults(lines, answers, size, random.Random(seed))
                other = fault(faults)
                if other is None:
                    continue
                tried[fault] += 1
                if not wrong(faults.lines, other):
                    missed.append(f"{fault.__name__}, P {size[0]}, E {size[1]}")
    return sum(tried.values()), missed + [f"{fault.__name__}: never placed" for fault in FAULTS if not tried[fault]]
