"""Deposit files and the catalogue, by document 01, "The deposit file" and "The catalogue"."""

import itertools
import math

from lines import bits_of, float_of
from tables import (
    CELLS,
    PLAYERS,
    STRATEGIES,
    Refused,
    cell_number,
    check_outputs,
    check_table,
    order_keys,
    write,
)

OPENS, COUNT, CELL, CLOSES = 0, 1, 2, 3
EDITION = 1


# The deposit file.

class Words:
    """The words of a file, met left to right."""

    def __init__(self, data):
        self.data = data
        self.met = 0

    def payload(self, kind):
        """The next word's payload: 17 where there is no word, 18 where its kind is another."""
        start = self.met * 4
        if start >= len(self.data):
            raise Refused(17)
        word = int.from_bytes(bytes(self.data[start:start + 4]), "big")
        if word >> 30 != kind:
            raise Refused(18)
        self.met += 1
        return word % 2**30


def read(data, counts_out, payoffs_out):
    """Writes counts and payoffs into the two lent buffers, and returns P."""
    if len(data) % 4 != 0:
        raise Refused(17)
    words = Words(data)
    opening = words.payload(OPENS)
    if opening // 256 != EDITION:
        raise Refused(19)
    players = opening % 256
    if players == 0:
        raise Refused(1)
    if players > PLAYERS:
        raise Refused(2)
    counts = []
    for _ in range(players):
        count = words.payload(COUNT)
        if count == 0:
            raise Refused(3)
        if count > STRATEGIES:
            raise Refused(4)
        counts.append(count)
    cells = cell_number(counts)
    if cells > CELLS:
        raise Refused(5)
    check_outputs((counts_out, players), (payoffs_out, cells))
    payoffs = []
    for _ in range(cells):
        top = words.payload(CELL)
        if top > 15:
            raise Refused(19)
        middle = words.payload(CELL)
        last = words.payload(CELL)
        payoff = float_of((top << 60) + (middle << 30) + last)
        if not math.isfinite(payoff):
            raise Refused(7)
        payoffs.append(payoff)
    words_before = words.met
    if words.payload(CLOSES) != words_before:
        raise Refused(19)
    if words.met * 4 != len(data):
        raise Refused(20)
    write(counts_out, counts)
    write(payoffs_out, payoffs)
    return players


def word_bytes(kind, payload):
    """The four bytes of a word, the highest first."""
    return list(((kind << 30) + payload).to_bytes(4, "big"))


def write_file(counts, payoffs, output):
    """Writes the file of a table into the byte buffer, and returns the bytes written."""
    check_table(counts, payoffs)
    data = word_bytes(OPENS, EDITION * 256 + len(counts))
    for count in counts:
        data += word_bytes(COUNT, count)
    for payoff in payoffs:
        bits = bits_of(payoff)
        data += word_bytes(CELL, bits >> 60)
        data += word_bytes(CELL, (bits >> 30) % 2**30)
        data += word_bytes(CELL, bits % 2**30)
    data += word_bytes(CLOSES, len(data) // 4)
    check_outputs((output, len(data)))
    write(output, data)
    return len(data)


# The catalogue.

def key_of(first, second):
    """The eight base-4 digits, player 0's four and then player 1's, the first one highest."""
    key = 0
    for digit in first + second:
        key = key * 4 + digit
    return key


def swapped_rows(four):
    """Of what stands at the profiles 0 0, 0 1, 1 0 and 1 1."""
    return [four[2], four[3], four[0], four[1]]


def swapped_columns(four):
    return [four[1], four[0], four[3], four[2]]


def least_key(first, second):
    """The least among the keys of the four tables got by swapping rows, columns or both."""
    keys = [
        key_of(first, second),
        key_of(swapped_rows(first), swapped_rows(second)),
        key_of(swapped_columns(first), swapped_columns(second)),
        key_of(
            swapped_columns(swapped_rows(first)),
            swapped_columns(swapped_rows(second)),
        ),
    ]
    return min(keys)


def catalogue():
    """The least keys of all tables of ranks, ascending."""
    orders = [list(order) for order in itertools.permutations(range(4))]
    return sorted({least_key(first, second) for first in orders for second in orders})


def ranks(keys):
    """Rank of each of four different order keys, least 0."""
    return [sorted(keys).index(key) for key in keys]


def number(counts, payoffs):
    """The catalogue's number of a table, or None."""
    check_table(counts, payoffs)
    if counts != [2, 2]:
        return None
    keys = order_keys(payoffs)
    first = keys[0::2]
    second = keys[1::2]
    if len(set(first)) != 4 or len(set(second)) != 4:
        return None
    return catalogue().index(least_key(ranks(first), ranks(second)))


def strictly_ranked(first, second):
    """Whether no two numbers of the same player are equal."""
    return len(set(first)) == 4 and len(set(second)) == 4
