"""Document 02's request [1] on whole numbers: a reward split among clients by weight, to the smallest unit. It reads no pool, and the Rust has no such call."""
from image import WORD, refuse

MOST = 64       # weights


def parts(reward, weights):
    """Refusals 28 (the list for the parts is always as long as the weights), 13, 29; then each client's part."""
    refuse(28, len(weights) > MOST)
    total = sum(weights)
    refuse(13, total >= WORD)
    refuse(29, total == 0)
    found = [reward * weight // total for weight in weights]
    left = reward - sum(found)
    for place in sorted(range(len(weights)), key=lambda place: (-(reward * weights[place] % total), place))[:left]:
        found[place] += 1
    return found
