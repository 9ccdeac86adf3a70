"""The changes of item 9 at random: on lists of calls, on made-up images, at the edges of what fits, damaged."""
import model
import operations
from generate import LARGE
from model import HALF, M, WORD, ZERO_KEY
from operations import STATES, Accounts, Change, Creation, Slash
from payments import WHOLE, Payments, position

TOTALS = [0, 1, 5, 2**40, HALF - 2, HALF - 1, HALF, WHOLE - 1, WHOLE]
CHANGES = [0, 1, -1, -5, 2**40, -2**40, HALF - 2, HALF - 1, -HALF, 1 - HALF, 2 - HALF]
COUNTS = [0, 1, 2, 255, HALF - 1, HALF, WHOLE - 1, WHOLE]


class Changes(Payments):
    # What a call is about.

    def whom(self):
        """A publisher and an account, of either side."""
        pool = self.site.pool()
        publisher, seat = self.seat(pool)
        stake_account = pool.stake_account(seat)
        return publisher, self.r.choice([stake_account, stake_account, *self.accounts, self.other_key(stake_account)])

    def side(self, publisher, account):
        """Total and signed change of the account's side; 0 and 0 where the publisher has no seat."""
        pool = self.site.pool()
        try:
            at = operations.side_at(pool, pool.seat_of(publisher), account)
        except model.Refused:
            return 0, 0
        return pool.words[at], operations.signed(pool.words[at + 1])

    def amount_by(self, most):
        """Any, or around the most that the side bears."""
        if self.r.random() < .4:
            return self.r.randrange(self.scale)
        return self.close(self.r.choice([0, most, most, HALF - 1, HALF, WHOLE, self.word()]))

    def share_of(self, total):
        return self.close(self.r.choice([0, 0, total, self.r.randrange(max(0, total) + 1), self.r.randrange(max(0, total) + 1), self.word()]))

    # Calls that are refused for their figures, if at all.

    def new_add(self):
        publisher, account = self.whom()
        return Change(self.last(), publisher, account, self.amount_by(HALF - 1 - self.side(publisher, account)[1]))

    def new_remove(self):
        publisher, account = self.whom()
        state = self.r.choices(STATES, [4, 4, 1, 1, 2])[0]
        return Change(self.last(), publisher, account, self.amount_by(HALF + self.side(publisher, account)[1]), state)

    def new_creation(self):
        pool = self.site.pool()
        publisher, seat = self.seat(pool)
        index = pool.words[pool.slashes + seat]
        return Creation(self.r.choice([self.last(), self.last(), self.word()]), publisher, self.r.choice([index] * 4 + [self.close(index), self.word()]))

    def new_slash(self):
        publisher, account = self.whom()
        total, change = self.side(publisher, account)
        preunlocking = self.close(HALF - 1 - change) if self.r.random() < .2 else self.share_of(total)
        locked = self.share_of(total - preunlocking)
        now = self.last()
        event = self.r.choice([now, now, now, self.close(now), max(0, now - self.r.randrange(9))])
        index = self.r.choice([0, 1, self.r.randrange(9), WHOLE - 1, WHOLE, self.word()])
        next_index = index if event == now or self.r.random() < .5 else self.r.choice([0, self.close(index), self.word()])
        return Slash(now, publisher, account, now, next_index, index, event, locked, preunlocking)

    def new_fee(self):
        return self.r.choice([0, 1, M - 1, M, M, M + 1, self.r.randrange(M + 1), self.r.randrange(M + 1), self.word()])

    def held(self, publisher, with_it=False):
        """Positions of which none is in this publisher, or one is; its key may stand in those that are none of it."""
        words = self.positions(self.r.choice([k for k in self.keys if k != publisher] or [publisher]), [self.last()])
        nines = [words[at:at + 9] for at in range(0, len(words), 9)]
        wanted = model.words_of(publisher)
        nines = [w for w in nines if w[0] != 2 or w[5:] != wanted]
        if self.r.random() < .3:
            nines.append(position(publisher, self.word(), kind=self.r.choice([0, 1])))
        if with_it:
            nines.append(position(publisher, self.r.choice([0, 1, self.word()]), self.r.choice([0, self.last(), WHOLE])))
        return self.in_any_order(nines[-model.MOST_POSITIONS:])

    def new_accounts(self):
        pool = self.site.pool()
        publisher, seat = self.seat(pool)
        current, key = pool.stake_account(seat), self.r.randbytes(32)
        new = self.r.choice([None, ZERO_KEY, *self.accounts, self.other_key(current)])
        new_positions = [] if new is None else self.held(publisher)
        if current == ZERO_KEY:
            signer, authority = self.r.choice([(publisher, key), (key, key), (publisher, publisher)])
            old, owner = self.r.choice([(None, None), (ZERO_KEY, key), (key, signer)])
            with_it = self.r.random() < .2      # not looked at
        else:
            signer, authority, old, owner, with_it = key, self.r.choice([key, ZERO_KEY, publisher]), current, key, False
        return Accounts(publisher, signer, authority, old, owner, [] if old is None else self.held(publisher, with_it), new, new_positions)

    def new_change(self):
        """A call's name and what its line gives."""
        kind = self.r.choice([("add", self.new_add), ("remove", self.new_remove), ("create-slash-event", self.new_creation), ("slash", self.new_slash),
                              ("slash", self.new_slash), ("fee", self.new_fee), ("stake-account", self.new_accounts), ("stake-account", self.new_accounts)])
        return kind[0], kind[1]()

    # Damaged ones.

    def other_value(self, value):
        if isinstance(value, bytes):
            return self.other_key(value)
        if isinstance(value, str):
            return self.r.choice(STATES)
        return value if value is None else self.r.choice([max(0, value - 1), min(value + 1, WHOLE), self.word(), HALF, WHOLE])

    def damaged_list(self, publisher, words):
        return self.damaged_positions(words) if self.r.random() < .4 else self.held(publisher, True)

    def other_accounts(self, a):
        there = [name for name in ("old", "new") if getattr(a, name) is not None]
        if there and self.r.random() < .5:
            name = self.r.choice(there) + "_positions"
            return a._replace(**{name: self.damaged_list(a.publisher, getattr(a, name))})
        absent = dict(old=None, old_owner=None, old_positions=[])
        other = dict(old=self.other_key(a.old or ZERO_KEY), old_owner=self.r.choice([a.signer, self.other_key(a.signer)]))
        name = self.r.choice(["publisher", "signer", "authority"] + ["old_owner"] * (a.old is not None))
        signer = self.r.choice([self.other_key(a.signer), a.publisher, a.authority])
        return self.r.choice([lambda: a._replace(**absent), lambda: a._replace(**other), lambda: a._replace(signer=signer),
                              lambda: a._replace(**{name: self.other_key(getattr(a, name))})])()

    def damaged_change(self, name, x):
        for _ in range(self.r.choice([1, 1, 1, 2, 3, 4])):
            if name == "fee":
                x = self.r.choice([M + 1, self.word()])
            elif name == "stake-account":
                x = self.other_accounts(x)
            elif name == "slash" and self.r.random() < .2:
                now = self.close(x.now)     # of all that the pool isn't asked for
                x = x._replace(now=now, record_epoch=now, event_epoch=now)
            else:
                at = self.r.choice(x._fields)
                x = x._replace(**{at: self.other_value(getattr(x, at))})
        return x

    # Calls.

    def change_it(self, name, x):
        self.journal.say(operations.line(name, x))
        if len(self.site.words) < 500 or self.r.random() < .2:
            self.look()

    def changes(self, count):
        for _ in range(count):
            name, x = self.new_change()
            self.change_it(name, self.damaged_change(name, x) if self.r.random() < .35 else x)

    def sides_at_the_edge(self):
        """The same image with sides and slash counts at the edges of their words; at times without stake accounts."""
        pool = self.site.pool()
        words = list(pool.words)
        sides = self.p if self.p <= 16 else 4
        for side in (pool.own, pool.other):
            words[side:side + 2 * sides] = [w for _ in range(sides) for w in (self.r.choice(TOTALS), self.r.choice(CHANGES) % WORD)]
        words[pool.slashes:pool.slashes + sides] = self.r.choices(COUNTS, k=sides)
        if self.r.random() < .2:
            words[pool.stake_accounts:pool.events] = [0] * (4 * self.p)
        self.journal.put(words)

    # What a level is made of.

    def step(self):
        super().step()
        self.changes(self.r.randrange(4))

    def change_list(self):
        self.journal.put(self.made_up())
        for _ in range(self.r.randrange(1, 4)):
            if len(self.site.words) < LARGE and self.r.random() < .6:
                self.sides_at_the_edge()
            self.changes(self.r.randrange(3, 7))

    def other_image(self):
        self.kept_changes = [self.new_change() for _ in range(3)]
        super().other_image()

    def other_sizes(self):
        self.kept_changes = [self.new_change() for _ in range(3)]
        super().other_sizes()

    def all_calls(self, a):
        for name, x in self.kept_changes:
            self.change_it(name, self.damaged_change(name, x) if self.r.random() < .3 else x)
        super().all_calls(a)
