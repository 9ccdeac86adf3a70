"""The table that `show` answers, from the words of an image."""
from image import HALF, WORD, ZERO_KEY


def signed(word):
    return word if word < HALF else word - WORD


def short(key):
    """A key's first four bytes and its last four."""
    return "none" if key == ZERO_KEY else f"{key[:4].hex()}..{key[-4:].hex()}"


def seat_lines(pool, seat):
    """Two lines: the self side with what belongs to the seat, the other side."""
    words = pool.words
    (own, own_change), (other, other_change) = (words[at + 2 * seat:at + 2 * seat + 2] for at in (pool.own, pool.other))
    fee, slashes = words[pool.fees + seat], words[pool.slashes + seat]
    yield (f"  {seat:>4}  {short(pool.key(seat))}  {'self':5}  {own:>20}  {signed(own_change):>20}  {fee:>7}  {slashes:>12}"
           f"  {short(pool.stake_account(seat))}")
    yield f"  {'':4}  {'':18}  {'other':5}  {other:>20}  {signed(other_change):>20}"


def event_line(pool, k):
    at = pool.event(k)
    return f"  {k:>20}  {k % pool.e:>20}  {pool.words[at]:>20}  {pool.words[at + 1]:>20}"


def lines(pool):
    """The lines behind `ok N`, of a checked image."""
    last, claimable, n = pool.words[0], pool.words[1], pool.words[pool.n]
    seats = [seat for seat in range(pool.p) if pool.key(seat) != ZERO_KEY]
    newest = range(n - 1, n - 1 - min(n, pool.e), -1)
    return [f"  last epoch  {last}", f"  claimable   {claimable}", f"  events      {n}", f"  seats       {len(seats)} of {pool.p}",
            f"  {'seat':>4}  {'publisher':18}  {'side':5}  {'total':>20}  {'change':>20}  {'fee':>7}  {'slash events':>12}  stake account",
            *(line for seat in seats for line in seat_lines(pool, seat)),
            f"  {'event':>20}  {'slot':>20}  {'epoch':>20}  {'y':>20}", *(event_line(pool, k) for k in newest)]


def answer(pool):
    """As the one value of an answer: how many lines follow, and the lines."""
    found = lines(pool)
    return "\n".join([str(len(found)), *found])
