"""The table's groups with payments."""
import cases
import model
from by_hand import A, B, C, D, STAKE, payment, pool, row, say_cases, stake
from model import M, WORD, ZERO_KEY

ENOUGH = WORD - 1       # custody that covers all


def payments_by_hand(t):
    """Payments: each sentence of document 01's item 8, and each refusal at its edge."""
    say_cases(t, cases.PAYMENTS)


def payments_on_a_list(t):
    """Stake comes by an image; then advances and payments by turns, of a publisher, of its stakers, of one without a publisher account."""
    t.say("fresh 10")
    t.call("advance", 10, [row(A), row(B)])
    words = list(t.site.words)
    at = t.site.pool()
    words[at.own:at.own + 4] = [60_000_000, 0, 5_000, 0]
    words[at.other:at.other + 4] = [80_000_000, 20_000_000, 0, 7_000_000]
    words[at.stake_accounts:at.stake_accounts + 4] = model.words_of(STAKE)
    words[at.fees:at.fees + 2] = [200_000, 50_000]
    t.put(words)
    own, other = stake(60_000_000, 9), [stake(50_000_000, 9), stake(1, 9, 11, key=B), stake(30_000_000, 10, 13), stake(20_000_000, 12)]
    pair = [stake(7_000_000, 11, key=B), stake(9, 11)]
    record = 10
    for now, cap in ((11, WORD - 1), (12, 100_000_000), (14, 90_000_000), (15, 0), (21, WORD - 1)):
        t.both(now, [row(A, cap), row(B, cap)], custody=ENOUGH if now != 14 else 3_500_000)
        for epoch in (record, now - 1, now):
            t.say(payment(own, now=now, account=STAKE, epoch=epoch, index=now))
            t.say(payment(*other, now=now, epoch=epoch))
            t.say(payment(*pair, now=now, publisher=B, epoch=epoch, other=None, flag=0))
            t.say(payment(*pair, now=now, publisher=B, account=ZERO_KEY, epoch=epoch, other=ZERO_KEY))
        t.say("nonzero")
        record = now - 1


def payments_as_the_ring_turns(t):
    """An event at a time with a y of its own, for two turns of the ring; records behind it, in it, ahead of it."""
    t.put(pool([], p=3, e=7, last=9, claimable=M, keys=[A, C, B], stakes=[ZERO_KEY, STAKE, D]))
    words = list(t.site.words)
    at = t.site.pool()
    words[at.own:at.own + 6] = [10**9, 0, 10**9, 0, 10**9, 0]
    words[at.other:at.other + 6] = [10**9, 0, 10**9, 0, 10**9, 0]
    words[at.fees:at.fees + 3] = [0, 333_333, M]
    t.put(words)
    rows = [row(A, 1_500_000_000), row(B, 700_000_000), row(C)]
    for now in range(10, 26):
        t.call("advance", now, rows, y=600 * (now - 9))
        for epoch in (0, now - 7, now - 6):
            t.say(payment(stake(10**6, key=C), stake(10**6, 8, 17, key=C), now=now, publisher=C, epoch=epoch))
        t.say(payment(stake(10**6, 20, key=B), stake(3, 15, key=B), now=now, publisher=B, account=D, other=D, epoch=now - 5))
    t.say("image")
