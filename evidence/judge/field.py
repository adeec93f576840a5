"""The field of 256 elements, modulo x^8 + x^4 + x^3 + x^2 + 1, and the correction of blocks by
Euclid's algorithm.

A polynomial is a list of its coefficients, the lowest first.
"""
POWERS = [1]
for _ in range(254):
    POWERS.append(POWERS[-1] << 1 ^ (0x11d if POWERS[-1] & 0x80 else 0))
POWERS += POWERS
LOGARITHMS = {power: exponent for exponent, power in enumerate(POWERS[:255])}


class Uncorrected(Exception):
    """The block has more errors than can be corrected."""


def product(a, b):
    return POWERS[LOGARITHMS[a] + LOGARITHMS[b]] if a and b else 0


def quotient(a, b):
    return POWERS[LOGARITHMS[a] + 255 - LOGARITHMS[b]] if a else 0


def value(polynomial, point):
    total = 0
    for coefficient in reversed(polynomial):
        total = product(total, point) ^ coefficient
    return total


def syndromes(block, count):
    """Returns the values of a block at the first `count` powers of 2; its first byte is the highest
    coefficient."""
    found = []
    for exponent in range(count):
        total = 0
        for byte in block:
            total = byte ^ (POWERS[LOGARITHMS[total] + exponent] if total else 0)
        found.append(total)
    return found


def trimmed(polynomial):
    while polynomial and polynomial[-1] == 0:
        polynomial.pop()
    return polynomial


def added(first, second, factor, shift):
    """Returns `first` plus `factor` times `second` times x^shift."""
    total = first + [0] * (len(second) + shift - len(first))
    for i, coefficient in enumerate(second):
        total[i + shift] ^= product(coefficient, factor)
    return trimmed(total)


def key(values, count):
    """Runs Euclid's algorithm on x^count and the syndromes; returns the first remainder below half
    of the degree (the evaluator), and its factor (the locator)."""
    before, now = [0] * count + [1], trimmed(list(values))
    factor_before, factor = [], [1]
    while 2 * (len(now) - 1) >= count:
        while len(before) >= len(now):
            shift, scale = len(before) - len(now), quotient(before[-1], now[-1])
            before = added(before, now, scale, shift)
            factor_before = added(factor_before, factor, scale, shift)
        before, now, factor_before, factor = now, before, factor, factor_before
    return now, factor


def corrected(block, count):
    """Returns the bytes that vanish at the first `count` powers of 2 and differ from the block in
    at most half as many places, and the number of these."""
    values = syndromes(block, count)
    if not any(values):
        return block, 0
    evaluator, locator = key(values, count)
    slope = [coefficient if i % 2 == 0 else 0 for i, coefficient in enumerate(locator[1:])]
    mended, wrong = list(block), 0
    for exponent in range(len(block)):
        inverse = POWERS[255 - exponent]
        if value(locator, inverse) == 0:
            steep = value(slope, inverse)
            if steep == 0:
                raise Uncorrected
            mended[-1 - exponent] ^= product(POWERS[exponent],
                                             quotient(value(evaluator, inverse), steep))
            wrong += 1
    if 2 * wrong > count or any(syndromes(mended, count)):
        raise Uncorrected
    return bytes(mended), sum(one != other for one, other in zip(block, mended))
