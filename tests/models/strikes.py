"""Survivors and strikes, by the sentences of document 01, section "Strikes"."""

from tables import (
    PLAYERS,
    STRATEGIES,
    Refused,
    check_counts,
    check_outputs,
    check_player,
    check_table,
    eight_counts,
    equilibrium_list,
    lowest_dominators,
    order_keys,
    write,
    write_listing,
)


class Survivors:
    """A record with P, the counts and 512 marks, 64 to a player."""

    def __init__(self, players, counts, marks):
        self.players = players
        self.counts = counts
        self.marks = marks


def nobody():
    """P 0, counts 0 and no mark."""
    return Survivors(0, [0] * PLAYERS, [False] * (PLAYERS * STRATEGIES))


def marked(survivors, player):
    """The player's marked strategies, ascending."""
    start = player * STRATEGIES
    return [s for s in range(STRATEGIES) if survivors.marks[start + s]]


def standing_of(survivors):
    """For each player below P, its surviving strategies."""
    return [marked(survivors, player) for player in range(survivors.players)]


def every_mark(counts):
    """Fresh survivors of a table of these counts: every strategy marked."""
    eight = eight_counts(counts)
    marks = []
    for player in range(PLAYERS):
        marks += [s < eight[player] for s in range(STRATEGIES)]
    return Survivors(len(counts), eight, marks)


def differ(counts, survivors):
    """Foreign (16), for the counts of a table."""
    eight = eight_counts(counts)
    if survivors.players != len(counts) or survivors.counts != eight:
        return True
    for player in range(len(counts)):
        if marked(survivors, player) == []:
            return True
    for player in range(PLAYERS):
        for s in marked(survivors, player):
            if s >= eight[player]:
                return True
    return False


def is_foreign(counts, survivors):
    """Whether the survivors are foreign; the counts have to be those of a table."""
    check_counts(counts)
    return differ(counts, survivors)


def check_survivors(counts, survivors):
    """16."""
    if differ(counts, survivors):
        raise Refused(16)


def fresh(counts, payoffs):
    check_table(counts, payoffs)
    return every_mark(counts)


def struck(counts, keys, survivors, player, strategy):
    """The lowest dominator and the survivors without the one mark; 8, 14 or 15 else."""
    check_player(counts, player)
    if strategy >= counts[player]:
        raise Refused(14)
    if not survivors.marks[player * STRATEGIES + strategy]:
        raise Refused(14)
    standing = standing_of(survivors)
    dominator = lowest_dominators(counts, keys, player, standing, [strategy])[0]
    if dominator is None:
        raise Refused(15)
    marks = list(survivors.marks)
    marks[player * STRATEGIES + strategy] = False
    return dominator, Survivors(survivors.players, survivors.counts, marks)


def strike(counts, payoffs, survivors, player, strategy):
    check_table(counts, payoffs)
    check_survivors(counts, survivors)
    return struck(counts, order_keys(payoffs), survivors, player, strategy)


def strikes(counts, payoffs, players, strategies, answers, dominators):
    """A list of strike calls on fresh survivors.

    For each call the first output gets 0 where it is accepted, or else its refusal, and the
    second its dominator, or 0 where it is refused. Returns the number of accepted ones and the
    survivors after the list.
    """
    survivors = fresh(counts, payoffs)
    check_outputs((answers, len(players)), (dominators, len(players)))
    keys = order_keys(payoffs)
    accepted = 0
    told = []
    # Refusals among the same survivors, so that a call repeated is not worked out anew.
    refused = {}
    for player, strategy in zip(players, strategies):
        call = (player, strategy)
        if call not in refused:
            try:
                dominator, survivors = struck(counts, keys, survivors, player, strategy)
            except Refused as refusal:
                refused[call] = refusal.number
            else:
                accepted += 1
                told.append((0, dominator))
                refused = {}
                continue
        told.append((refused[call], 0))
    write(answers, [answer for answer, dominator in told])
    write(dominators, [dominator for answer, dominator in told])
    return accepted, survivors


def strike_each(counts, payoffs, survivors, players, strategies):
    """A call of strike for each that two lists name, on the survivors that the last handed back.

    Returns the number of accepted ones and the survivors. Of unequal lists the shorter counts.
    """
    accepted = 0
    for player, strategy in zip(players, strategies):
        try:
            dominator, survivors = strike(counts, payoffs, survivors, player, strategy)
        except Refused:
            continue
        accepted += 1
    return accepted, survivors


def surviving_equilibria(counts, payoffs, survivors, choices, utilities):
    """As the listing, but profiles of survivors only, and changes to survivors only."""
    check_table(counts, payoffs)
    check_survivors(counts, survivors)
    found = equilibrium_list(counts, payoffs, standing_of(survivors))
    return write_listing(counts, payoffs, found, choices, utilities)
