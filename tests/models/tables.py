"""Tables of normal-form games in pure strategies, by the sentences of document 01.

A table is its counts, one for each player, and its payoffs, one f64 for each cell. Lent buffers
are lists that a call writes into; a refused call raises Refused and writes nothing.
"""

import itertools
import math

from lines import bits_of

PLAYERS = 8
STRATEGIES = 64
CELLS = 65536


class Refused(Exception):
    """A refusal, by its number in the refusal table."""

    def __init__(self, number):
        super().__init__("refused %d" % number)
        self.number = number


# The table.

def profile_number(counts):
    """How many profiles there are."""
    profiles = 1
    for count in counts:
        profiles *= count
    return profiles


def cell_number(counts):
    """Cells in all: profiles x P."""
    return profile_number(counts) * len(counts)


def offset_of(counts, profile):
    """Start at 0; for each player in order, multiply by that player's count, add the choice."""
    offset = 0
    for count, choice in zip(counts, profile):
        offset = offset * count + choice
    return offset


def steps_of(counts):
    """For each player, by how much the offset grows when its choice goes up by 1."""
    return [profile_number(counts[player + 1:]) for player in range(len(counts))]


def order_key(payoff):
    """Order key of a finite f64, from its 64 bits: b when b < 2^63, else 2^63 - b."""
    b = bits_of(payoff)
    if b < 2**63:
        return b
    return 2**63 - b


def order_keys(payoffs):
    return [order_key(payoff) for payoff in payoffs]


# Refusal table.

def check_counts(counts):
    """1, 2, then 3 and 4 player by player, then 5."""
    if len(counts) == 0:
        raise Refused(1)
    if len(counts) > PLAYERS:
        raise Refused(2)
    for count in counts:
        if count == 0:
            raise Refused(3)
        if count > STRATEGIES:
            raise Refused(4)
    if cell_number(counts) > CELLS:
        raise Refused(5)


def check_table(counts, payoffs):
    """1 to 7."""
    check_counts(counts)
    if len(payoffs) != cell_number(counts):
        raise Refused(6)
    for payoff in payoffs:
        if not math.isfinite(payoff):
            raise Refused(7)


def check_player(counts, player):
    """8."""
    if player >= len(counts):
        raise Refused(8)


def check_profile(counts, profile):
    """11, then 12 in player order."""
    if len(profile) != len(counts):
        raise Refused(11)
    for count, choice in zip(counts, profile):
        if choice >= count:
            raise Refused(12)


def check_opponents(counts, player, opponents):
    """9, then 10 in player order, the player's own place skipped."""
    if len(opponents) != len(counts) - 1:
        raise Refused(9)
    for count, choice in zip(counts[:player] + counts[player + 1:], opponents):
        if choice >= count:
            raise Refused(10)


def check_outputs(*lengths):
    """13, for pairs of an output and the number of elements that the result needs."""
    for output, needed in lengths:
        if len(output) < needed:
            raise Refused(13)


def write(output, elements):
    """Elements past those written keep their contents."""
    output[:len(elements)] = elements


# The table: utilities, spaces, offsets and payoffs.

def utility(payoff):
    """A payoff that has passed the finite check."""
    if not math.isfinite(payoff):
        raise Refused(7)
    return payoff


def compare(a, b):
    """Whether a is greater, they are equal, b is greater: greater and equal mean their keys'."""
    a = order_key(utility(a))
    b = order_key(utility(b))
    return a > b, a == b, b > a


def profile_count(counts):
    check_counts(counts)
    return profile_number(counts)


def table_profile_count(counts, payoffs):
    check_table(counts, payoffs)
    return profile_number(counts)


def eight_counts(counts):
    """The counts, and 0 for each place past the last player."""
    return counts + [0] * (PLAYERS - len(counts))


def from_counts(counts):
    """P and the eight counts of a strategy space."""
    check_counts(counts)
    return len(counts), eight_counts(counts)


def payoff_matrix(counts, payoffs):
    """P and the eight counts of a table."""
    check_table(counts, payoffs)
    return len(counts), eight_counts(counts)


def offset(counts, payoffs, profile):
    check_table(counts, payoffs)
    check_profile(counts, profile)
    return offset_of(counts, profile)


def payoff_of(counts, payoffs, profile, player):
    """Player p's cell of a profile is at offset x P + p."""
    check_table(counts, payoffs)
    check_player(counts, player)
    check_profile(counts, profile)
    return payoffs[offset_of(counts, profile) * len(counts) + player]


def profile_payoffs(counts, payoffs, profile):
    """The P payoffs of a profile; an empty part where the offset call refuses."""
    try:
        start = offset(counts, payoffs, profile) * len(counts)
    except Refused:
        return []
    return payoffs[start:start + len(counts)]


def advance_profile(counts, choices):
    """From Vec and closure to slices and loops: the next choices, and whether there are any.

    The last player's choice runs fastest. A choice that cannot go up, because it is the last
    one, at its count or past it, goes to 0, and the player before it goes up. Places past the
    players keep their contents, and players past the eighth place are not read.
    """
    choices = list(choices)
    for player in reversed(range(min(len(counts), PLAYERS))):
        if choices[player] + 1 < counts[player]:
            choices[player] += 1
            return True, choices
        choices[player] = 0
    return False, choices


# Best responses, dominance, equilibria.

def best_strategies(counts, payoffs, player, opponents):
    """Strategies whose payoff no other strategy of the player exceeds, ascending, and payoffs."""
    own = []
    for strategy in range(counts[player]):
        profile = opponents[:player] + [strategy] + opponents[player:]
        own.append(payoffs[offset_of(counts, profile) * len(counts) + player])
    keys = order_keys(own)
    best = []
    for strategy in range(counts[player]):
        if not any(key > keys[strategy] for key in keys):
            best.append((strategy, own[strategy]))
    return best


def best_response_list(counts, payoffs, player, opponents):
    check_table(counts, payoffs)
    check_player(counts, player)
    check_opponents(counts, player, opponents)
    return best_strategies(counts, payoffs, player, opponents)


def best_responses(counts, payoffs, player, opponents, strategies, utilities):
    best = best_response_list(counts, payoffs, player, opponents)
    check_outputs((strategies, len(best)), (utilities, len(best)))
    write(strategies, [strategy for strategy, payoff in best])
    write(utilities, [payoff for strategy, payoff in best])
    return len(best)


def every_strategy(counts):
    """For each player, all its strategies."""
    return [list(range(count)) for count in counts]


def first_cells(counts, player, standing):
    """The player's cell when it chooses 0, for each of the others' choices that stand."""
    others = standing[:player] + [[0]] + standing[player + 1:]
    cells = []
    for profile in itertools.product(*others):
        cells.append(offset_of(counts, profile) * len(counts) + player)
    return cells


def strictly_dominates(keys, cells, step, t, s):
    """t is not s, and t's payoff is greater against every choice of the opponents.

    `cells` are the player's cells at its choice 0, and a choice is `step` cells further than the
    one before it.
    """
    if t == s:
        return False
    for cell in cells:
        if not keys[cell + t * step] > keys[cell + s * step]:
            return False
    return True


def lowest_dominators(counts, keys, player, standing, strategies):
    """For each of the strategies its lowest dominator among those standing, or None."""
    cells = first_cells(counts, player, standing)
    step = steps_of(counts)[player] * len(counts)
    lowest = []
    for s in strategies:
        dominator = None
        for t in standing[player]:
            if strictly_dominates(keys, cells, step, t, s):
                dominator = t
                break
        lowest.append(dominator)
    return lowest


def strictly_dominated_strategies(counts, payoffs, player, dominated, dominators):
    """Each dominated strategy ascending, its lowest dominator, and how many there are."""
    check_table(counts, payoffs)
    check_player(counts, player)
    standing = every_strategy(counts)
    strategies = standing[player]
    lowest = lowest_dominators(counts, order_keys(payoffs), player, standing, strategies)
    found = [(s, t) for s, t in zip(strategies, lowest) if t is not None]
    check_outputs((dominated, len(found)), (dominators, len(found)))
    write(dominated, [s for s, t in found])
    write(dominators, [t for s, t in found])
    return len(found)


def no_change_gains(counts, steps, keys, profile, standing):
    """No player's change of only its own choice, to one standing, gives it a greater payoff."""
    players = len(counts)
    place = offset_of(counts, profile)
    for player in range(players):
        own = keys[place * players + player]
        first = place - profile[player] * steps[player]
        for choice in standing[player]:
            if keys[(first + choice * steps[player]) * players + player] > own:
                return False
    return True


def equilibrium_list(counts, payoffs, standing):
    """Profiles of those standing that no change to one standing gains at, in profile order."""
    steps = steps_of(counts)
    keys = order_keys(payoffs)
    found = []
    for profile in itertools.product(*standing):
        if no_change_gains(counts, steps, keys, profile, standing):
            found.append(profile)
    return found


def write_listing(counts, payoffs, found, choices, utilities):
    """The first that both outputs hold whole: P choices into one buffer, P payoffs into another.

    Returns the total and the number written (change N2).
    """
    players = len(counts)
    held = min(len(choices) // players, len(utilities) // players)
    first = found[:held]
    first_choices = []
    first_payoffs = []
    for profile in first:
        start = offset_of(counts, profile) * players
        first_choices += profile
        first_payoffs += payoffs[start:start + players]
    write(choices, first_choices)
    write(utilities, first_payoffs)
    return len(found), len(first)


def is_equilibrium(counts, payoffs, profile):
    check_table(counts, payoffs)
    check_profile(counts, profile)
    keys = order_keys(payoffs)
    return no_change_gains(counts, steps_of(counts), keys, profile, every_strategy(counts))


def equilibria(counts, payoffs, choices, utilities):
    check_table(counts, payoffs)
    found = equilibrium_list(counts, payoffs, every_strategy(counts))
    return write_listing(counts, payoffs, found, choices, utilities)


# Marks, change N3: a lent buffer with a byte for each cell.

def check_marks(counts, marks):
    """13, for a buffer with fewer bytes than cells."""
    check_outputs((marks, cell_number(counts)))


def best_response_marks(counts, payoffs, marks):
    """1 where the profile's choice is a best response of the cell's player, else 0.

    Returns the number of 1 bytes written.
    """
    check_table(counts, payoffs)
    check_marks(counts, marks)
    players = len(counts)
    strategies = every_strategy(counts)
    cells = [0] * cell_number(counts)
    for player in range(players):
        for others in itertools.product(*strategies[:player], *strategies[player + 1:]):
            opponents = list(others)
            for best, payoff in best_strategies(counts, payoffs, player, opponents):
                profile = opponents[:player] + [best] + opponents[player:]
                cells[offset_of(counts, profile) * players + player] = 1
    write(marks, cells)
    return sum(cells)


def marked_profiles(counts, payoffs, marks, choices, utilities):
    """The profiles none of whose P marks is 0, whatever table they are from, as a listing."""
    check_table(counts, payoffs)
    check_marks(counts, marks)
    players = len(counts)
    found = []
    for profile in itertools.product(*every_strategy(counts)):
        start = offset_of(counts, profile) * players
        if 0 not in marks[start:start + players]:
            found.append(profile)
    return write_listing(counts, payoffs, found, choices, utilities)
