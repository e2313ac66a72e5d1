"""The two candidate checks and the verdict, by document 01, section "Candidate checks".

A Python float is an f64, and each + - * of floats is rounded once and raises nothing. Sums are
written as loops, because their order is part of the definition.
"""

import math

INFINITY = math.inf
SIZE = 64


def sizes_are_wrong(m, n):
    return m == 0 or m > SIZE or n == 0 or n > SIZE


def all_finite(numbers):
    return all(math.isfinite(number) for number in numbers)


def gains(m, n, u1, u2, weights):
    """Every gain: player 1's rows i and k, then player 2's columns j and l."""
    found = []
    for i in range(m):
        for k in range(m):
            if i == k:
                continue
            gain = 0.0
            for j in range(n):
                difference = u1[k * n + j] - u1[i * n + j]
                product = weights[i * n + j] * difference
                gain = gain + product
            found.append(gain)
    for j in range(n):
        for l in range(n):
            if j == l:
                continue
            gain = 0.0
            for i in range(m):
                difference = u2[i * n + l] - u2[i * n + j]
                product = weights[i * n + j] * difference
                gain = gain + product
            found.append(gain)
    return found


def verify_correlated_equilibrium_incentives(m, n, u1, u2, weights):
    """The greatest gain, or +0.0 when none is above 0; infinity where one is not to be had."""
    if sizes_are_wrong(m, n):
        return INFINITY
    if len(u1) != m * n or len(u2) != m * n or len(weights) != m * n:
        return INFINITY
    if not all_finite(u1 + u2 + weights):
        return INFINITY
    # -0.0 is a weight like 0.0: it is not below 0.
    if any(weight < 0.0 for weight in weights):
        return INFINITY
    found = gains(m, n, u1, u2, weights)
    if not all_finite(found):
        return INFINITY
    greatest = 0.0
    for gain in found:
        if gain > greatest:
            greatest = gain
    return greatest


def verdict(m, n, u1, u2, weights, tolerance):
    """Yes exactly when the tolerance is finite and not below 0, and the answer is not over it."""
    if not math.isfinite(tolerance) or tolerance < 0.0:
        return False
    return not verify_correlated_equilibrium_incentives(m, n, u1, u2, weights) > tolerance


def sum_is_off(vector, tolerance):
    """The sum left to right, less 1.0 and rounded, is further from 0 than the tolerance."""
    total = 0.0
    for entry in vector:
        total = total + entry
    rest = total - 1.0
    return rest > tolerance or rest < -tolerance


def verify_minimax_residuals(m, n, payoffs, p1, p2, value, tolerance):
    """No for each of the faults of the section, in its order; else yes."""
    if sizes_are_wrong(m, n):
        return False
    if len(payoffs) != m * n or len(p1) != m or len(p2) != n:
        return False
    if not all_finite(payoffs + p1 + p2 + [value, tolerance]):
        return False
    if tolerance < 0.0:
        return False
    if any(entry < -tolerance for entry in p1 + p2):
        return False
    if sum_is_off(p1, tolerance) or sum_is_off(p2, tolerance):
        return False
    least = value - tolerance
    most = value + tolerance
    for j in range(n):
        expectation = 0.0
        for i in range(m):
            product = p1[i] * payoffs[i * n + j]
            expectation = expectation + product
        if not math.isfinite(expectation) or expectation < least:
            return False
    for i in range(m):
        expectation = 0.0
        for j in range(n):
            product = p2[j] * payoffs[i * n + j]
            expectation = expectation + product
        if not math.isfinite(expectation) or expectation > most:
            return False
    return True
