"""Reads deposits and reports, and holds a report to its deposit (docs/DEPOSIT.md).

    python3 docs/deposit.py FILE.deposit              the table, its payoffs in decimals
    python3 docs/deposit.py FILE.report               the report, its payoffs in decimals
    python3 docs/deposit.py FILE.deposit FILE.report  whether the report is this deposit's

The status is 0 for an answer, a refusal too; 1 for a report that is not in the form, its lines and
words, or not this deposit's; 2 where a file cannot be read, or not one or two
are named. It needs Python 3.8 and no packages.
"""
import itertools
import math
import struct
import sys

PLAYERS, STRATEGIES, CELLS = 8, 64, 65536  # the most that a table has
REPORT_CELLS, REPORT_BYTES = 2048, 24616   # the most that a report takes
OPENS, COUNT, CELL, CLOSES = 0, 1, 2, 3    # the kinds of words
EDITION, REFUSALS = 1, 20                  # the only edition; the highest refusal
INFINITY = 2047 << 52                      # the order key of infinity; a NaN's is beyond it

class Refused(Exception):
    """A refusal, with its number."""

def refuse(number, when):
    """Refuses the deposit by the number where the fault is there."""
    if when:
        raise Refused(number)

def read(data, most_cells):
    """A deposit's counts and the payoffs of each profile, or its first fault from left to right."""
    refuse(17, len(data) % 4 != 0)
    words = iter([int.from_bytes(data[i:i + 4], "big") for i in range(0, len(data), 4)])
    def payload(kind):
        """The payload of the next word, which has to be there and of the kind that is due."""
        word = next(words, None)
        refuse(17, word is None)
        refuse(18, word >> 30 != kind)
        return word % 2**30
    edition, players = divmod(payload(OPENS), 256)
    refuse(19, edition != EDITION)
    refuse(1, players == 0)
    refuse(2, players > PLAYERS)
    counts = []
    for _ in range(players):
        counts.append(payload(COUNT))
        refuse(3, counts[-1] == 0)
        refuse(4, counts[-1] > STRATEGIES)
    cells = math.prod(counts) * players
    refuse(5, cells > most_cells)
    payoffs = []
    for _ in range(cells):
        top = payload(CELL)
        refuse(19, top > 15)
        middle, last = payload(CELL), payload(CELL)
        payoffs.append((top << 60) + (middle << 30) + last)
        refuse(7, abs(order_key(payoffs[-1])) >= INFINITY)
    refuse(19, payload(CLOSES) != 1 + players + 3 * cells)
    refuse(20, next(words, None) is not None)
    profiles = itertools.product(*map(range, counts))  # in order, the last player's running fastest
    return counts, {p: payoffs[i * players:(i + 1) * players] for i, p in enumerate(profiles)}

def digits(bits):
    """A payoff, which is kept as its 64 bits, as a report writes it."""
    return "%016x" % bits

def value(bits):
    """The number of a payoff's bits, which Python prints in the fewest decimals that give them."""
    return struct.unpack(">d", struct.pack(">Q", bits))[0]

def order_key(bits):
    """The number by which payoffs are compared: greater, equal and less mean their keys'."""
    return bits if bits < 2**63 else 2**63 - bits

def changed(profile, player, choice):
    """The profile with another choice of one player."""
    return profile[:player] + (choice,) + profile[player + 1:]

def is_equilibrium(counts, keys, profile):
    """Whether no player's change of only its own choice gives that player a greater payoff."""
    return not any(keys[changed(profile, player, choice)][player] > keys[profile][player]
                   for player, count in enumerate(counts) for choice in range(count))

def dominates(keys, left, player, t, s):
    """Whether t gives the player more than s against every choice that is left to the others."""
    return t != s and all(keys[changed(profile, player, t)][player] > keys[profile][player]
                          for profile in itertools.product(*left[:player], [s], *left[player + 1:]))

def strikes(counts, keys):
    """Player, strategy and lowest dominator of each strike, sweep by sweep until one has none."""
    left, struck, before = [list(range(count)) for count in counts], [], None
    while len(struck) != before:
        before = len(struck)
        for player in range(len(counts)):
            for s in list(left[player]):
                by = [t for t in left[player] if dominates(keys, left, player, t, s)]
                if by:
                    left[player].remove(s)
                    struck.append((player, s, by[0]))
    return struck

def least_key(first, second):
    """The digits of the least key among the four tables got by swapping rows, columns or both."""
    orders = (0, 1, 2, 3), (2, 3, 0, 1), (1, 0, 3, 2), (3, 2, 1, 0)
    return min(tuple(ranks[i] for ranks in (first, second) for i in order) for order in orders)

def number(counts, keys):
    """The number of a table in the catalogue, or `none`."""
    of_players = list(zip(*keys.values()))
    if counts != [2, 2] or any(len(set(own)) != 4 for own in of_players):
        return "none"
    orders = list(itertools.permutations(range(4)))
    catalogue = sorted({least_key(first, second) for first in orders for second in orders})
    ranks = [[sorted(own).index(key) for key in own] for own in of_players]
    return str(catalogue.index(least_key(*ranks)))

def text_of(counts, lines):
    """The text of the two lines that tell the counts, and of more lines of words and numbers."""
    lines = [["players", len(counts)], ["counts", *counts], *lines]
    return "".join(" ".join(map(str, line)) + "\n" for line in lines)

def report_text(counts, equilibria, struck, numbered, shown):
    """The text of a report from its parts, with each payoff shown in the way given."""
    lines = [["equilibria", len(equilibria)], *[[*p, *map(shown, own)] for p, own in equilibria]]
    return text_of(counts, lines + [["struck", len(struck)], *struck, ["catalogue", numbered]])

def report_of(data):
    """The whole report of a deposit's bytes, also where it is refused."""
    try:
        refuse(5, len(data) > REPORT_BYTES)
        counts, table = read(data, REPORT_CELLS)
    except Refused as refusal:
        return "refused %d\n" % refusal.args
    keys = {profile: [order_key(bits) for bits in table[profile]] for profile in table}
    equilibria = [(p, table[p]) for p in table if is_equilibrium(counts, keys, p)]
    return report_text(counts, equilibria, strikes(counts, keys), number(counts, keys), digits)

def in_decimals(text):
    """A report with its payoffs in decimals; IndexError or ValueError where the form is another."""
    if text in ["refused %d\n" % refusal for refusal in range(1, REFUSALS + 1)]:
        return text
    lines = [line.split(" ") for line in text.split("\n")]
    counts = [int(count) for count in lines[1][1:]]
    size, found, numbered = len(counts), int(lines[2][1]), lines[-2][1]
    equilibria = [([int(word) for word in line[:size]],
                   [int(line[size + i], 16) for i in range(size)]) for line in lines[3:3 + found]]
    struck = [(int(player), int(s), int(t)) for player, s, t in lines[4 + found:-2]]
    parts = counts, equilibria, struck, numbered if numbered == "none" else int(numbered)
    finite = all(abs(order_key(bits)) < INFINITY for _, payoffs in equilibria for bits in payoffs)
    # The parts, written again, have to give the same text.
    if report_text(*parts, digits) != text or "-" in text or counts == [] or not finite:
        raise ValueError
    return report_text(*parts, value)

def show(name, data):
    """Prints a deposit or a report in decimals, and returns the status."""
    text = data.decode("latin-1")
    try:
        # No accepted deposit begins so: the first byte of an opening word, which is 256 + P, is 0.
        if name.endswith(".report") or text.startswith(("players ", "refused ")):
            print(in_decimals(text), end="")
        else:
            counts, table = read(data, CELLS)
            print(text_of(counts, [[*p, *map(value, table[p])] for p in table]), end="")
    except Refused as refusal:
        print("refused %d" % refusal.args)
    except (IndexError, ValueError):
        print("the report is not in the form")
        return 1
    return 0

def compare(data, report):
    """Prints whether the report is the deposit's, or its first wrong line; returns the status."""
    expected, found = report_of(data).splitlines(True), report.decode("latin-1").splitlines(True)
    for number, pair in enumerate(itertools.zip_longest(expected, found), 1):
        if pair[0] != pair[1]:
            print("line %d: expected %a, found %a" % (number, *pair))
            return 1
    print("the report is this deposit's")
    return 0

def main(names):
    """Answers about one file or two, and returns the status."""
    if len(names) not in (1, 2):
        print(__doc__, file=sys.stderr)
        return 2
    try:
        files = [open(name, "rb").read() for name in names]
    except OSError as error:
        print(error, file=sys.stderr)
        return 2
    return show(names[0], files[0]) if len(files) == 1 else compare(*files)

if __name__ == "__main__":
    sys.exit(main(sys.argv[1:]))
