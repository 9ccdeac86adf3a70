"""Demand 3, checked on a journal's lists of calls from fresh pools, by document 01's 'The words of demand 3'.

A list begins with a comment that says what custody is, ahead of `fresh`; further comments say what is deposited, what is withdrawn and where it ends.
What is remembered of it comes from the lines and from the answers that a program gave to them: the images are those that it answered to `nonzero`.
"""
import collections

import model
from image import Pool, Refused, WORD, ZERO_KEY, positions_of
from model import numbers_of

START, DEPOSIT, WITHDRAW, END = "a list of calls, custody", "deposit", "withdraw", "end of the list"
MEANT = "; accepted payments are within the totals"      # by those who wrote the list: it holds their books against those here


class Wrong(Exception):
    """A clause that doesn't hold; its one argument says which."""


class History:
    """What is remembered of a list. Of the passed epochs those of the newest E events are kept: older ones can't be drawn from any more."""

    def __init__(self, size, unlocking, custody, meant, counts):
        self.p, self.e = size
        self.unlocking, self.custody, self.meant, self.counts = unlocking, custody, meant, counts
        self.deposits = self.withdrawals = self.falls = 0       # with the custody that the list starts with, what makes up the balance
        self.withdrawn = False  # whether anything was
        self.most = None        # that claimable may be behind the last call, an accepted advance
        self.first = self.now = None
        self.aside = self.paid = 0
        self.totals = {}        # by passed epoch: by seat and side, of the occupied seats, the total written from and what is drawn
        self.exceeded = False   # more than a total has been drawn by accepted payments
        self.words = None       # the image before the next call

    def clause(self, holds, says):
        self.counts["clauses"] += 1
        if not holds:
            raise Wrong(says)

    # The balance, as the token side keeps it.

    def balance(self):
        return self.custody + self.deposits - self.withdrawals - self.falls

    def withdraw(self, amount):
        self.counts["withdrawals"] += 1
        self.counts["lists with withdrawals"] += not self.withdrawn
        self.withdrawn = True
        self.clause(amount <= self.balance(), f"{amount} withdrawn, custody is {self.balance()}")
        self.withdrawals += amount

    # The calls.

    def fresh(self, epoch):
        self.first = self.now = epoch - 1

    def advance(self, fields, values, number):
        """Told the balance, and not beyond the larger of it and of what was claimable."""
        custody, claimable = int(fields[2]), self.words[1]
        self.clause(custody == self.balance(), f"an advance was told {custody}, custody is {self.balance()}")
        if number == 0:
            self.counts["drained"] += claimable > custody
            self.most = max(custody, claimable)
            self.write(int(fields[0]), int(values[1]))

    def write(self, now, aside):
        """Each passed epoch's event, written from the totals of the pool that was handed over, rolled behind the first."""
        pool = Pool(self.p, self.e, self.words)
        occupied = [seat for seat in range(self.p) if pool.key(seat) != ZERO_KEY]
        for epoch in range(max(self.now, now - self.e), now):
            self.totals[epoch] = {(seat, side): [self.total(pool, side, seat, epoch > self.now), 0] for seat in occupied for side in "so"}
        self.now = now
        self.aside += aside
        for epoch in [e for e in self.totals if e < now - self.e]:
            self.leave(self.totals.pop(epoch))

    def total(self, pool, side, seat, rolled):
        at = (pool.own if side == "s" else pool.other) + 2 * seat
        change = pool.words[at + 1]
        return pool.words[at] + ((change if change < WORD // 2 else change - WORD) if rolled else 0)

    def leave(self, totals):
        """Of an epoch that leaves the ring."""
        self.counts["totals drawn whole"] += sum(total == drawn > 0 for total, drawn in totals.values())

    def draws(self, fields):
        """From each epoch what the payment draws, and the seat and side; none where the publisher has no seat."""
        pool, publisher, account = Pool(self.p, self.e, self.words), bytes.fromhex(fields[1]), bytes.fromhex(fields[2])
        try:
            seat, positions = pool.seat_of(publisher), positions_of(numbers_of(fields[7]))
        except Refused:
            return {}
        place = seat, "s" if account == pool.stake_account(seat) else "o"
        matching = [q for q in positions if q.kind == 2 and q.key == publisher]
        epochs = range(max(self.first, self.now - self.e, int(fields[3])), self.now)
        return {(epoch, *place): sum(self.drawn_in(q, epoch) for q in matching) for epoch in epochs}

    def drawn_in(self, position, epoch):
        try:
            return position.amount if model.state(position, epoch, self.unlocking) in ("LOCKED", "PREUNLOCKING") else 0
        except Refused:
            return 0

    def within(self, draws):
        """Whether what has been drawn, with this too, is at most the totals; seats that were not occupied don't count."""
        places = [(self.totals[epoch].get(tuple(place), (amount, 0)), amount) for (epoch, *place), amount in draws.items()]
        return not self.exceeded and all(drawn + amount <= total for (total, drawn), amount in places)

    def payment(self, fields, values, number):
        """Refused with 16 it must be beyond the totals; accepted, it is paid and draws."""
        draws = self.draws(fields)
        within = self.within(draws)
        self.counts["within" if within else "beyond", number] += 1
        if number == 16:
            self.clause(not within, "a payment within the totals is refused with 16")
        if number:
            return
        if self.meant and not within:
            raise Wrong("an accepted payment is beyond the totals, and the list says that none is")
        delegator, publisher, *_, fall = map(int, values)
        self.clause(fall == delegator + (0 if fields[5] == "none" else publisher), f"parts {delegator} and {publisher}, custody falls by {fall}")
        self.clause(fall <= self.balance(), f"custody falls by {fall}, it is {self.balance()}")
        self.paid += delegator + publisher
        self.falls += fall
        for (epoch, *place), amount in draws.items():
            if tuple(place) in self.totals[epoch]:
                self.totals[epoch][tuple(place)][1] += amount
        self.exceeded |= not within
        self.counts["last of claimable"] += delegator + publisher > 0 and self.paid == self.aside

    def call(self, name, fields, answer):
        number = int(answer[1]) if answer[0] == "refused" else 0
        self.most = None
        if name in ("advance", "payment"):
            getattr(self, name)(fields, answer[1:], number)

    # The clauses on an image.

    def image(self, words):
        self.words = words
        self.books(words)
        self.ring(Pool(self.p, self.e, words))

    def books(self, words):
        claimable, balance = words[1], self.balance()
        self.clause(claimable + self.paid == self.aside, f"claimable {claimable}, paid {self.paid}, set aside {self.aside}")
        self.clause(balance < WORD, f"custody {balance}")
        if self.most is not None:
            self.clause(claimable <= self.most, f"claimable {claimable}, the larger of custody told and claimable before {self.most}")
        if not self.withdrawn:
            self.clause(claimable <= balance, f"claimable {claimable}, custody {balance}")

    def ring(self, pool):
        words, n = pool.words, pool.words[pool.n]
        self.clause(words[0] == self.now, f"last epoch {words[0]}, now {self.now}")
        self.clause(n == self.now - self.first, f"n {n}, passed epochs {self.now - self.first}")
        count = min(n, self.e)
        newest = [words[pool.event(n - 1 - j)] for j in range(count)]
        self.clause(newest == [self.now - 1 - j for j in range(count)], f"events newest first {newest}, now {self.now}")
        slots = [words[pool.event(t)] for t in range(count)]
        self.clause(sorted(slots) == list(range(self.now - count, self.now)), f"slots {slots}, now {self.now}")
        self.clause(n >= self.e or not any(words[pool.event(n):pool.n]), "a slot never written is not zero")

    def end(self):
        for totals in self.totals.values():
            self.leave(totals)


def image_of(size, answer):
    words = [0] * model.length(*size)
    for pair in answer[1:]:
        at, word = pair.split(":")
        words[int(at)] = int(word)
    return words


class Check:
    """The lists of a journal, one after the other."""

    def __init__(self):
        self.counts = collections.Counter()
        self.size, self.unlocking, self.history = None, 1, None

    def comment(self, text):
        if text.startswith(START):
            custody = int(text[len(START):].split(";")[0])
            self.history = History(self.size, self.unlocking, custody, text.endswith(MEANT), self.counts)
            self.counts["lists"] += 1
        elif self.history and text.startswith(DEPOSIT):
            self.history.deposits += int(text.split()[-1])
        elif self.history and text.startswith(WITHDRAW):
            self.history.withdraw(int(text.split()[-1]))
        elif self.history and text == END:
            self.history.end()
            self.history = None

    def line(self, text, answer):
        """Raises Wrong where a clause doesn't hold."""
        name, *fields = text.split()
        answer = answer.split()
        if name in ("show", "state"):
            return
        if name == "new":
            self.size = tuple(map(int, fields))
        elif name == "settings":
            self.unlocking = int(fields[1])
        elif self.history is None or answer[0] not in ("ok", "refused"):
            self.history = None
        elif name == "nonzero":
            self.history.image(image_of(self.size, answer))
        elif name == "fresh":
            self.history.fresh(int(fields[0]))
        else:
            self.counts["calls"] += 1
            self.history.call(name, fields, answer)

    def journal(self, lines, answers):
        """The places of the lines behind which a clause doesn't hold, and which; the rest of such a list is passed over."""
        answers, found = iter(answers), []
        for at, line in enumerate(lines):
            answer = next(answers, "(no answer)") if line.answer is not None else None
            if line.again:
                continue
            try:
                if answer is None:
                    self.comment(line.text[2:])
                else:
                    self.line(line.text, answer)
            except Wrong as w:
                found.append((at, w.args[0]))
                self.history = None
        return found
