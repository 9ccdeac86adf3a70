"""Long lists of calls from a fresh pool, with deposits and, two in five, with withdrawals: stakers add and remove stake and are paid what their
positions earn, slashes, fees and stake accounts change in between, refused calls come in between too. They are the lists of demand 3, which demand3.py
checks.

Custody is kept here: every advance is told it. A comment ahead of `fresh` says what it is, others say what is deposited, what is withdrawn and where
the list ends. A withdrawal or a payment that would take more than there is does not come: the token side refuses it.
"""
import copy

import model
import operations
import states
from changes import Changes
from demand3 import DEPOSIT, END, MEANT, START, WITHDRAW
from generate import message, with_time
from model import HALF, M, ZERO_KEY, Advance, Payment
from operations import Accounts, Change, Creation, Slash
from payments import WHOLE, line, position


class Stake:
    """A position."""

    def __init__(self, publisher, amount, activation, start=None):
        self.publisher, self.amount, self.activation, self.start = publisher, amount, activation, start

    def words(self):
        return position(self.publisher, self.amount, self.activation, self.start)

    def state(self, epoch, unlocking):
        return model.state(model.positions_of(self.words())[0], epoch, unlocking)


class Staker:
    """A stake account, its owner, its positions, and for each publisher the record: epoch and next index."""

    def __init__(self, r):
        self.account, self.owner = r.randbytes(32), r.randbytes(32)
        self.stakes, self.records, self.others = [], {}, []

    def record(self, publisher):
        return self.records.setdefault(publisher, [0, 0])

    def of(self, publisher):
        return [s for s in self.stakes if s.publisher == publisher]

    def words(self):
        return [w for s in self.stakes for w in s.words()] + self.others

    def part(self, stake, amount):
        """Splits a position so that one of this amount stands for itself."""
        if amount < stake.amount:
            self.stakes.append(Stake(stake.publisher, stake.amount - amount, stake.activation, stake.start))
            stake.amount = amount


class Stakers(Changes):
    # The list's beginning.

    def begin_list(self, withdraws=None):
        r = self.r
        self.withdraws = r.random() < .4 if withdraws is None else withdraws
        self.scale = r.choice([30, 10**6, 10**9, 10**9, 10**12, 10**12, 2**50, 2**58])
        self.honest = r.random() < .8           # no staker is paid for more than was staked
        self.exact = self.honest and r.random() < .5    # what is set aside is paid to the last unit, where custody covers it
        self.unit = 10_000 if self.exact else 1         # of all amounts: nothing is rounded then
        self.publishers = sorted(r.sample(self.keys, min(len(self.keys), self.p + 1, 5)))
        self.town = [Staker(r) for _ in range(r.randrange(2, 7))]
        for staker in self.town:
            if r.random() < .3:
                staker.others = r.choice([[0] * 9, position(r.choice(self.publishers), 5, kind=1), position(r.randbytes(32), 7)])
        self.slash_epochs = {}      # of a publisher's slash events
        self.balance = r.choice([0, 0, 0, r.randrange(self.scale), 10 * self.scale])
        epoch = r.choice([1, 2, 10, r.randrange(1, 3_000), r.randrange(1, 3_000), max(1, self.most_now - 5_000)])
        self.journal.comment(f"{START} {self.balance}" + MEANT * self.honest)
        self.say(f"fresh {epoch}")
        self.pass_epochs()

    def say(self, text):
        """A call, and the image behind it."""
        answer = self.journal.say(text)
        self.journal.say("nonzero")
        return answer.split()

    def asked(self, text):
        """What the call would be answered."""
        return copy.copy(self.site).answer(text).split()

    def refused(self, text):
        """Whether the call would be refused, and with which number."""
        answer = self.asked(text)
        return int(answer[1]) if answer[0] == "refused" else 0

    # Epochs pass.

    def some(self, most):
        """An amount of up to so much, at least a unit."""
        return self.unit * self.r.randint(1, max(1, most // self.unit))

    def caps_rows(self):
        if self.exact:
            return [k + WHOLE.to_bytes(8, "big") for k in self.publishers]
        chosen = [k for k in self.publishers if self.r.random() < .9]
        cap = self.r.choice([WHOLE, 10 * self.scale, self.scale])
        return [k + self.r.choice([cap, cap, self.r.randrange(self.scale), 0]).to_bytes(8, "big") for k in chosen]

    def steps(self):
        e = self.e
        if self.exact:
            return self.r.choice([1, 1, 1, e, self.r.randint(1, e)])
        return self.r.choice([1] * 12 + [2, 2, 3, e, e + 1, 2 * e, max(1, e - 1), self.r.randrange(1, 300)])

    def withdraw(self, share=1):
        """All of custody, down to about what is claimable or a part of it, or some; at times in several parts."""
        if not self.withdraws or self.r.random() > share:
            return
        for _ in range(self.r.choice([1, 1, 1, 2, 3])):
            claimable = self.claimable()
            left = self.r.choice([0, claimable - 1, claimable, claimable + 1, claimable // 2, self.r.randrange(claimable + 1), self.r.randrange(self.balance + 1)])
            amount = self.balance - min(max(0, left), self.balance)
            if amount:
                self.journal.comment(f"{WITHDRAW} {amount}")
                self.balance -= amount

    def deposit(self, a):
        """What covers the advance, or about that, or less; where withdrawals come also about what is claimable, or none."""
        if self.withdraws and self.r.random() < .5:
            return self.put_in(self.close(max(0, self.claimable() - self.balance)) if self.r.random() < .3 else 0)
        try:
            aside = self.site.worked_out(a._replace(custody=WHOLE))[3][1]
        except model.Refused:
            aside = 0
        short = max(0, self.claimable() + aside - self.balance)
        amount = self.r.choice([short, short, self.close(short), short * 9 // 10, short // 2, 0, self.r.randrange(2 * short + 1)])
        if self.r.random() < .03:
            amount += self.scale
        if self.exact and self.r.random() < .95:
            amount = short
        self.put_in(amount)

    def put_in(self, amount):
        amount = min(amount, WHOLE - self.balance)
        if amount:
            self.journal.comment(f"{DEPOSIT} {amount}")
            self.balance += amount

    def pass_epochs(self):
        now = self.last() + self.steps()
        if now > self.most_now:
            return
        y = self.r.choice([10_000, 10_000, 10_000, 10_000 if self.exact else self.r.randrange(10_001)])
        a = Advance(now, y, 0, 1, message(self.time(now), self.caps_rows()), self.seconds)
        if self.r.random() < .1:
            self.say("forecast" + self.advance_line(a)[7:])
        if self.r.random() < .15:
            self.say(self.advance_line(self.r.choice([a._replace(verified=0), a._replace(now=self.last()), a._replace(y=10_001),
                                                      a._replace(message=a.message[:10]), a._replace(message=with_time(a.message, 0))])))
        self.deposit(a)
        self.withdraw(.15)
        self.say(self.advance_line(a))

    def advance_line(self, a):
        return f"advance {a.now} {a.y} {self.balance} {a.verified} {a.message.hex() or '-'}"

    # Payments.

    def stake_account(self, publisher):
        pool = self.site.pool()
        try:
            return pool.stake_account(pool.seat_of(publisher))
        except model.Refused:
            return ZERO_KEY

    def claim(self, staker, publisher):
        stake_account = self.stake_account(publisher)
        other = None if stake_account == ZERO_KEY and self.r.random() < .7 else stake_account
        return Payment(self.last(), publisher, staker.account, *staker.record(publisher), other, 1, staker.words(), self.unlocking)

    def pay_out(self, staker, p):
        """Says it, unless custody would fall by more than it holds; the answer has the record, and by how much custody falls."""
        answer = self.asked(line(p))
        if answer[0] == "ok" and int(answer[-1]) > self.balance:
            return
        answer = self.say(line(p))
        if answer[0] == "ok":
            *_, epoch, index, _, fall = map(int, answer[1:])
            staker.records[p.publisher] = [epoch, index]
            self.balance -= fall

    def settle(self):
        """The stakers are paid, in any order; some sleep."""
        pairs = [(s, k) for s in self.town for k in sorted({q.publisher for q in s.stakes})]
        self.r.shuffle(pairs)
        sleep = 0 if self.exact else self.r.choice([0, 0, 0, .3, 1])
        for staker, publisher in pairs:
            if self.r.random() < sleep:
                continue
            p = self.claim(staker, publisher)
            other = self.damaged_payment(p)
            if self.r.random() < .1 and self.allowed(line(other)):
                self.pay_out(staker, other)
            self.pay_out(staker, p)

    def allowed(self, text):
        """An honest list has no accepted call that draws more, or takes away more stake, than is the staker's."""
        return not self.honest or self.refused(text)

    def beyond(self):
        """Claims more than was staked: in an honest list only where that is refused."""
        staker, publisher = self.r.choice(self.town), self.publisher()
        p = self.claim(staker, publisher)._replace(record_epoch=0)
        amount = self.r.choice([self.scale, 100 * self.scale, 10_000 * self.scale, HALF])
        p = p._replace(positions=(p.positions + position(publisher, min(amount, WHOLE), self.r.choice([0, max(0, self.last() - 1)])))[-9 * 256:])
        if self.honest and self.refused(line(p)) != 16:
            return
        self.pay_out(staker, p)

    # Stake.

    def publisher(self):
        """One that has a seat, now and then any."""
        pool = self.site.pool()
        seated = [k for k in self.publishers if k in pool.seats()]
        return self.r.choice(seated if seated and self.r.random() < .95 else self.publishers)

    def stake_more(self):
        staker, publisher = self.r.choice(self.town), self.publisher()
        amount = self.some(self.r.choice([self.scale, self.scale, 1]))
        answer = self.say(operations.line("add", Change(self.last(), publisher, staker.account, amount)))
        if answer[0] == "ok" and len(staker.stakes) < 200:
            staker.stakes.append(Stake(publisher, amount, self.last() + 1))

    def unstake(self):
        """A position or a part of it, in the state it is in, which is asked for."""
        staker = self.r.choice(self.town)
        if not staker.stakes:
            return
        stake = self.r.choice(staker.stakes)
        state = self.journal.say(states.line(self.last(), stake.words())).split()[1]
        if state == "LOCKED" and self.unlocking >= HALF:
            return      # its end would not fit
        amount = stake.amount if self.r.random() < .7 else self.some(stake.amount)
        c = Change(self.last(), stake.publisher, staker.account, amount, state)
        if self.say(operations.line("remove", c))[0] != "ok":
            return
        staker.part(stake, amount)
        if state == "LOCKED":
            stake.start = self.last() + 1
        else:
            staker.stakes.remove(stake)

    # Slashes.

    def slashed_from(self, stakes, state):
        """Takes a part of each position that is in this state; answers how much, and how to do it."""
        taken = [(s, self.r.choice([s.amount, self.some(s.amount)])) for s in stakes if s.state(self.last(), self.unlocking) == state]
        return sum(amount for _, amount in taken), taken

    def slash_one(self):
        staker, publisher = self.r.choice(self.town), self.publisher()
        events, now = self.slash_epochs.setdefault(publisher, []), self.last()
        if self.r.random() < .5:
            if self.say(operations.line("create-slash-event", Creation(now, publisher, len(events))))[0] == "ok":
                events.append(now)
        if self.r.random() < .8:
            self.pay_out(staker, self.claim(staker, publisher))
        epoch, index = staker.record(publisher)
        if index >= len(events):
            return
        locked, some = self.slashed_from(staker.of(publisher), "LOCKED")
        preunlocking, others = self.slashed_from(staker.of(publisher), "PREUNLOCKING")
        s = Slash(now, publisher, staker.account, epoch, index, index, events[index], locked, preunlocking)
        if self.say(operations.line("slash", s))[0] != "ok":
            return
        staker.record(publisher)[1] = index + 1
        for stake, amount in some + others if events[index] == now else []:
            stake.amount -= amount
        staker.stakes = [q for q in staker.stakes if q.amount]

    # The rest.

    def new_fee_for_all(self):
        self.say(operations.line("fee", self.r.choice([0, M, M + 1, self.r.randrange(M + 1), self.r.randrange(300_000)])))

    def set_account(self):
        """By its publisher where the seat has none, by its owner where it has one; 24 and 27 where it still holds stake."""
        publisher, new = self.publisher(), self.r.choice([None, *self.town, *self.town])
        current = self.stake_account(publisher)
        old = next((s for s in self.town if s.account == current), None)
        signer = old.owner if old else publisher
        owned = (old.account, old.owner, old.words()) if old else (None, None, [])
        given = (new.account, new.words()) if new else (None, [])
        self.say(operations.line("stake-account", Accounts(publisher, signer, self.town[0].owner, *owned, *given)))

    def any_change(self):
        name, x = self.new_change()
        text = operations.line(name, self.damaged_change(name, x))
        if self.allowed(text):
            self.say(text)

    def busy(self):
        does = [(30, self.stake_more), (16, self.unstake), (12, self.slash_one), (4, self.new_fee_for_all), (7, self.set_account), (6, self.any_change),
                (6, self.beyond), (4, self.withdraw),
                (2, lambda: self.say(f"forecast {self.last() + 1} 10000 {self.balance} 1 " + message(self.time(self.last() + 1), []).hex()))]
        weights, does = zip(*does)
        self.r.choices(does, weights)[0]()

    def staking_list(self, rounds=None, withdraws=None):
        """Of so many rounds, with withdrawals or without; both at random unless given."""
        if not 10_000 < self.most_now:
            return self.change_list()
        self.begin_list(withdraws)
        most = (2, 5) if len(self.site.words) > 1_000 else (6, 40)
        for _ in range(rounds or self.r.randrange(*most)):
            for _ in range(self.r.randrange(3, 12)):
                self.busy()
            self.pass_epochs()
            self.withdraw(.2)
            self.settle()
        self.journal.comment(END)
