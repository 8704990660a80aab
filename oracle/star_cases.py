#!/usr/bin/env python3
"""Records evaluations for 64 stars in stars.bin of the folder named: random and damaged expressions, fewer and more words than flags, and each refusal
in its order; and evaluations with a wrong outcome in wrong_stars.bin. It rests on request 1 of document 02 and, for what an expression is, on the
model of document 01 in expression_cases.py; nothing of the library or of the original Rust is used. The format is in the README beside the
recorded files.
"""

import random
import sys
from pathlib import Path

import expression_cases as document_01
from expression_cases import LARGEST, Refusal, damaged, expression, parse, value

STARS = 64


# ---- the model: "a word whose bit j is the single evaluation of star j, for all 64"


def setting(n, words, star):
    """The star's setting: bit i is the star's bit of word i."""
    return sum((words[i] >> star & 1) << i for i in range(n))


def evaluate(n, words, data):
    if n > 6:
        raise Refusal(1, 0)
    if len(words) < n:
        raise Refusal(14, 0)
    tree = parse(n, data)
    return sum(value(tree, setting(n, words, star)) << star for star in range(STARS))


def case(n, words, data):
    try:
        number, result = 0, evaluate(n, words, data)
    except Refusal as refusal:
        number, result = refusal.number, refusal.place
    out = n.to_bytes(8, "little") + bytes([len(words)]) + len(data).to_bytes(2, "little") + bytes([number]) + result.to_bytes(8, "little")
    return out + b"".join(w.to_bytes(8, "little") for w in words) + data


# ---- the cases

RNG = random.Random(14)


def sent(count):
    """Words of that many flags: random, of one star each, of none or all, or such that the stars have the settings in turn."""
    kind = RNG.randrange(4)
    if kind == 0:
        return [1 << RNG.randrange(STARS) for _ in range(count)]
    if kind == 1:
        return [RNG.choice((0, LARGEST)) for _ in range(count)]
    if kind == 2:
        return [sum((s >> (i % 6) & 1) << s for s in range(STARS)) for i in range(count)]
    return [RNG.getrandbits(STARS) for _ in range(count)]


def rows():
    """The refusals at their edges and in their order, and each record alone."""
    for n in (0, 1, 2, 5, 6, 7, 8, 16, 64, 2**32, LARGEST):
        for count in range(9):
            for data in (b"CO\1", b"VA\0", b"XX", b""):
                yield case(n, sent(count), data)
        yield case(n, sent(255), b"VA\0")
    for n in range(7):
        for index in range(n + 1):
            yield case(n, sent(n), b"VA" + bytes([index]))
        for data in (b"CO\0", b"CO\1", b"CO\2", b"V", b"VA", b"AN", b"OR", b"XO", b"NO", b"CO\0NO", b"CO\1NO", b"CO\1CO\0"):
            yield case(n, sent(n), data)
        for first in (b"CO\0", b"CO\1"):
            for second in (b"CO\0", b"CO\1"):
                for mark in (b"AN", b"OR", b"XO"):
                    yield case(n, sent(n), first + second + mark)
    one = b"VA\0"
    long = one + b"NO" * 384
    for data in (long, long + b"NO", long + b"V", long + b"XX", one * 385, one * 386, one * 193 + b"XO" * 192, one * 193 + b"OR" * 192, one * 194 + b"AN" * 192):
        yield case(1, sent(1), data)
    # as many operands as a stack may hold, and some more and fewer
    for deep in (23, 24, 25, 26, 62, 63, 64, 65, 193):
        for mark in (b"AN", b"OR", b"XO"):
            flags = b"".join(b"VA" + bytes([i % 6]) for i in range(deep))
            yield case(6, sent(6), flags + mark * (deep - 1))


def random_cases():
    for k in range(700):
        n = k % 7
        data = expression(n, 1 + RNG.randrange(60))
        yield case(n, sent(n + RNG.choice((0, 0, 0, 1, 3))), data)
        if n:
            yield case(n, sent(RNG.randrange(n)), data)
    for k in range(24):
        n = 1 + k % 6
        for bad in damaged(n, expression(n, 2 + RNG.randrange(7))):
            yield case(n, sent(n + RNG.randrange(2)), bad)


def wrong():
    """A right evaluation, and then evaluations in each of which one thing is wrong: the value of the first star, of one between and of the last, a
    refusal for values, a refusal's number, a refusal's place, values for a refusal; and with more flags, with more words than flags and with many
    operands a star's value, and the place of the refusal of too few words."""
    rule = b"VA\0VA\1OR"
    right, refused = case(2, [12, 10], rule), case(2, [12, 10], rule + b"AN")
    deep = case(6, sent(8), b"".join(b"VA" + bytes([i % 6]) for i in range(65)) + b"XO" * 64)
    yield right
    yield changed(right, 12, 1)
    yield changed(right, 16, 4)
    yield changed(right, 19, 128)
    yield changed(right, 11, 1)
    yield changed(refused, 11, 1)
    yield changed(refused, 12, 1)
    yield changed(case(2, [12], rule), 11, 14)
    yield changed(case(6, sent(6), b"VA\3VA\5AN"), 14, 16)
    yield changed(case(3, sent(8), b"VA\2"), 13, 2)
    yield changed(deep, 17, 8)
    yield changed(case(6, sent(5), b""), 12, 1)


def changed(outcome, at, bits):
    return outcome[:at] + bytes([outcome[at] ^ bits]) + outcome[at + 1 :]


def main():
    if len(sys.argv) != 2:
        sys.exit("use: star_cases.py FOLDER")
    document_01.rng = RNG
    Path(sys.argv[1], "stars.bin").write_bytes(b"".join(list(rows()) + list(random_cases())))
    Path(sys.argv[1], "wrong_stars.bin").write_bytes(b"".join(wrong()))


if __name__ == "__main__":
    main()
