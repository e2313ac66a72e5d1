"""The calls of a view: a record that holds the payoffs beside P and eight counts.

Document 01, section "Strikes", last paragraph, and "The shape we want in each place": a view is
taken apart, and the call is the one on plain counts and payoffs. A view's P may be any number:
0 is refused by 1 and over 8 by 2, whatever the counts; else its counts are the first P of eight.
"""

import strikes
import tables
from tables import PLAYERS, Refused, write


def counts_of(players, eight):
    if players == 0:
        raise Refused(1)
    if players > PLAYERS:
        raise Refused(2)
    return eight[:players]


def listed_best_responses(counts, payoffs, player, opponents, strategies, utilities):
    """Best responses as records into a lent list of 64; here the records' two halves."""
    best = tables.best_response_list(counts, payoffs, player, opponents)
    tables.check_outputs((strategies, len(best)))
    write(strategies, [strategy for strategy, payoff in best])
    write(utilities, [payoff for strategy, payoff in best])
    return len(best)


def matrix_new(counts, payoffs):
    """P and the eight counts of the view of a table."""
    return tables.payoff_matrix(counts, payoffs)


def matrix_best_responses(payoffs, players, eight, player, opponents, strategies, utilities):
    counts = counts_of(players, eight)
    return listed_best_responses(counts, payoffs, player, opponents, strategies, utilities)


def matrix_is_equilibrium(payoffs, players, eight, profile):
    return tables.is_equilibrium(counts_of(players, eight), payoffs, profile)


def matrix_equilibria(payoffs, players, eight, choices, utilities):
    return tables.equilibria(counts_of(players, eight), payoffs, choices, utilities)


def matrix_strictly_dominated_strategies(payoffs, players, eight, player, dominated, dominators):
    counts = counts_of(players, eight)
    return tables.strictly_dominated_strategies(counts, payoffs, player, dominated, dominators)


def matrix_fresh(payoffs, players, eight):
    return strikes.fresh(counts_of(players, eight), payoffs)


def matrix_strike(payoffs, players, eight, survivors, player, strategy):
    return strikes.strike(counts_of(players, eight), payoffs, survivors, player, strategy)
