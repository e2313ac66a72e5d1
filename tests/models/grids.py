"""Whole-number grids: the gains of document 01, section "Candidate checks", in whole numbers.

On a grid, of change N1, the sizes are from 1 to 64, the payoffs whole numbers from -2^20 to 2^20
and the weights whole multiples of 1/65,536 from 0 to 1. There each gain, times 65,536, is the same
sum in whole numbers, and an answer of 0 puts no weight on a strictly dominated strategy.

The gains and the dominated strategies here are made of ints alone; `check` holds the floats of
candidates.py to them.
"""

import math
from fractions import Fraction

import candidates

SIZE = 64
PAYOFF = 2**20
PARTS = 65536


class Differs(Exception):
    """A grid of which candidates.py says something else."""


def times(unit, value):
    """A finite float, times a whole number, as the number that it is: nothing is rounded."""
    return unit * Fraction(value)


def whole_numbers(unit, values, least, most):
    """Floats, times a whole number, as ints; None where one is not whole or not in the range."""
    found = []
    for value in values:
        # A NaN is in no range.
        if not least <= value <= most:
            return None
        number = times(unit, value)
        if number.denominator != 1:
            return None
        found.append(number.numerator)
    return found


def grid(m, n, u1, u2, weights):
    """Both payoff tables, and the weights in parts of 65,536, as ints; None where it is no grid."""
    if not 1 <= m <= SIZE or not 1 <= n <= SIZE:
        return None
    if len(u1) != m * n or len(u2) != m * n or len(weights) != m * n:
        return None
    payoffs1 = whole_numbers(1, u1, -PAYOFF, PAYOFF)
    payoffs2 = whole_numbers(1, u2, -PAYOFF, PAYOFF)
    parts = whole_numbers(PARTS, weights, 0, 1)
    if payoffs1 is None or payoffs2 is None or parts is None:
        return None
    return payoffs1, payoffs2, parts


def strategies(table, m, n):
    """A flat table by the strategies of player 1, its rows, and by those of player 2."""
    return [table[i * n:i * n + n] for i in range(m)], [table[j::n] for j in range(n)]


def gains_of(payoffs, parts):
    """A player's gains times 65,536, by its strategies: t in place of s, for each s and t."""
    return [
        sum(part * (new - old) for part, new, old in zip(parts[s], payoffs[t], payoffs[s]))
        for s in range(len(payoffs)) for t in range(len(payoffs)) if s != t
    ]


def greatest_in_parts(gains):
    """The answer times 65,536, from the gains times 65,536: the greatest, or 0."""
    return max([0] + gains)


def dominated(payoffs):
    """A player's strategies such that another one pays more against each choice of the other."""
    return [
        s for s, here in enumerate(payoffs)
        if any(all(new > old for new, old in zip(there, here)) for there in payoffs)
    ]


def hold(what, value, parts):
    """A float has to be so many parts of 65,536, exactly."""
    if not math.isfinite(value) or times(PARTS, value) != parts:
        raise Differs("%s is %r, and %d parts of 65,536 in whole numbers" % (what, value, parts))


def check(m, n, u1, u2, weights, answer):
    """Holds the gains of candidates.py, and an answer, to the whole numbers where this is a grid.

    Tells whether it is one, and whether it also has the answer 0 and a dominated strategy.
    """
    found = grid(m, n, u1, u2, weights)
    if found is None:
        return False, False
    payoffs1, payoffs2, parts = found
    rows, columns = strategies(parts, m, n)
    players = [
        ("row", strategies(payoffs1, m, n)[0], rows),
        ("column", strategies(payoffs2, m, n)[1], columns),
    ]
    gains = candidates.gains(m, n, u1, u2, weights)
    whole_gains = [gain for _, payoffs, own in players for gain in gains_of(payoffs, own)]
    if len(gains) != len(whole_gains):
        raise Differs("%d gains, and %d in whole numbers" % (len(gains), len(whole_gains)))
    for place, (gain, whole_gain) in enumerate(zip(gains, whole_gains)):
        hold("gain %d" % place, gain, whole_gain)
    hold("the answer", answer, greatest_in_parts(whole_gains))
    if answer != 0:
        return True, False
    some = False
    for name, payoffs, own in players:
        for s in dominated(payoffs):
            some = True
            if any(own[s]):
                raise Differs("the answer is 0, and %s %d is dominated and has weight" % (name, s))
    return True, some
