#!/usr/bin/env python3
"""Records cases of the calls that take an expression, and of raw costing, in cases.bin of the folder named: every row of document 01's refusal table
at its edges, and damaged copies of good expressions; and cases with a wrong outcome in wrong_cases.bin. It rests on document 01 alone: the model
below is written from its text, apart from the library and from the original Rust, and the format is in the README beside the recorded files. The
reader's cases are in reading_cases.py.
"""

import random
import sys
from pathlib import Path

EVALUATE, COSTING, EXAMINE, RAW, CHEAPER = range(1, 6)
MARKS = {b"AN": "and", b"OR": "or", b"XO": "xor", b"NO": "not"}
LARGEST = 2**64 - 1


class Refusal(Exception):
    def __init__(self, number, place):
        self.number, self.place = number, place


# ---- the model: document 01's "Refusals by place of check", record by record


def record(n, data, at):
    """The record that begins at a byte: its kind, payload and the next place."""
    mark = data[at : at + 2]
    if len(mark) < 2:
        raise Refusal(6, at)
    if mark == b"CO" or mark == b"VA":
        if len(data) < at + 3 or data[at + 2] >= (2 if mark == b"CO" else n):
            raise Refusal(7, at)
        return ("constant" if mark == b"CO" else "flag", data[at + 2], at + 3)
    if mark not in MARKS:
        raise Refusal(6, at)
    return (MARKS[mark], 0, at + 2)


def parse(n, data):
    """The tree of an expression, as nested tuples."""
    if n > 6:
        raise Refusal(1, 0)
    stack, at, count = [], 0, 0
    while at < len(data):
        if count == 385:
            raise Refusal(9, at)
        kind, payload, after = record(n, data, at)
        arity = 0 if kind in ("constant", "flag") else 1 if kind == "not" else 2
        if len(stack) < arity:
            raise Refusal(8, at)
        operands = tuple(stack[len(stack) - arity :])
        del stack[len(stack) - arity :]
        stack.append((kind, payload) + operands)
        at, count = after, count + 1
    if len(stack) != 1:
        raise Refusal(10, len(data))
    return stack[0]


def value(t, s):
    kind = t[0]
    if kind == "constant":
        return t[1]
    if kind == "flag":
        return s >> t[1] & 1
    if kind == "not":
        return 1 - value(t[2], s)
    x, y = value(t[2], s), value(t[3], s)
    return x & y if kind == "and" else x | y if kind == "or" else x ^ y


def cost(t):
    total = 1 + sum(cost(u) for u in t[2:])
    return total - 1 if t[0] == "or" and t[2][0] == "or" else total


def size(t):
    return 1 + sum(size(u) for u in t[2:])


def depth(t):
    return 1 + max((depth(u) for u in t[2:]), default=0)


def raw_cost(n, coefficients):
    terms = [m for m in range(1 << n) if coefficients >> m & 1]
    if not terms:
        return 1
    return sum(1 if m == 0 else 2 * bin(m).count("1") - 1 for m in terms) + len(terms) - 1


def coefficients(n, table):
    return sum(
        (sum(table >> s & 1 for s in range(1 << n) if s & m == s) & 1) << m for m in range(1 << n)
    )


def answer(call, n, setting, entries, word, data, second):
    """What document 01 says: three results, or a refusal."""
    if call == EVALUATE:
        if n > 6:
            raise Refusal(1, 0)
        if setting >= 1 << n:
            raise Refusal(11, 0)
        return (value(parse(n, data), setting), 0, 0)
    if call == COSTING:
        t = parse(n, data)
        return (cost(t), size(t), depth(t))
    if call == EXAMINE:
        if n > 6:
            raise Refusal(1, 0)
        if entries < 1 << n:
            raise Refusal(2, 0)
        t = parse(n, data)
        for s in range(1 << n):
            if value(t, s) != word >> s & 1:
                raise Refusal(12, s)
        if cost(t) > raw_cost(n, coefficients(n, word & ((1 << (1 << n)) - 1))):
            raise Refusal(13, cost(t))
        return (cost(t), 0, 0)
    if call == RAW:
        if n > 6:
            raise Refusal(1, 0)
        if entries < 1:
            raise Refusal(3, 0)
        if word >> (1 << n):
            raise Refusal(4, 0)
        return (raw_cost(n, word), 0, 0)
    try:
        t, u = parse(n, data), parse(n, second)
    except Refusal:
        return (0, 0, 0)
    return (2 if (size(u), depth(u)) < (size(t), depth(t)) else 1, 0, 0)


def case(call, n, setting=0, entries=0, word=0, data=b"", second=b""):
    try:
        number, results = 0, answer(call, n, setting, entries, word, data, second)
    except Refusal as refusal:
        number, results = refusal.number, (refusal.place, 0, 0)
    out = bytes([call]) + n.to_bytes(8, "little") + setting.to_bytes(8, "little")
    out += entries.to_bytes(2, "little") + word.to_bytes(8, "little")
    out += len(data).to_bytes(2, "little") + len(second).to_bytes(2, "little") + bytes([number])
    return out + b"".join(r.to_bytes(2, "little") for r in results) + data + second


# ---- the cases


def leaf(n):
    return b"VA" + bytes([rng.randrange(n)]) if n and rng.random() < 0.85 else b"CO" + bytes([rng.randrange(2)])


def expression(n, records):
    """A random expression of that many records."""
    if records == 1:
        return leaf(n)
    if records == 2 or rng.random() < 0.15:
        return expression(n, records - 1) + b"NO"
    left = rng.randrange(1, records - 1)
    return expression(n, left) + expression(n, records - 1 - left) + rng.choice([b"AN", b"OR", b"XO"])


def table_of(n, data):
    t = parse(n, data)
    return sum(value(t, s) << s for s in range(1 << n))


def whole(n, data, table):
    """All calls on one expression."""
    yield case(COSTING, n, data=data)
    yield case(EXAMINE, n, entries=1 << min(n, 6), word=table, data=data)
    yield case(EVALUATE, n, setting=rng.randrange(1 << min(n, 6)), data=data)


def starts(data):
    """The first bytes of the records of a good expression, and its length."""
    at = [0]
    while at[-1] < len(data):
        at.append(at[-1] + (3 if data[at[-1] : at[-1] + 2] in (b"CO", b"VA") else 2))
    return at


def damaged(n, data):
    """Each record dropped and doubled, and each byte changed, dropped and doubled."""
    at = starts(data)
    for i, j in zip(at, at[1:]):
        yield data[:i] + data[j:]
        yield data[:j] + data[i:]
    for i in range(len(data)):
        yield data[:i] + bytes([rng.choice([0, 1, 2, 6, 7, 65, 67, 78, 79, 82, 86, 88, 255])]) + data[i + 1 :]
        yield data[:i] + data[i + 1 :]
        yield data[: i + 1] + data[i:]


def rows():
    """The refusal table's rows at their edges, and document 01's unmarked examples."""
    one = b"VA\0"
    for n in (0, 1, 5, 6, 7, 8, 16, 17, 64, 2**32, LARGEST):
        data = one if n else b"CO\1"
        yield case(EVALUATE, n, data=data)
        yield case(COSTING, n, data=data)
        yield case(RAW, n, entries=1, word=1)
        yield case(CHEAPER, n, data=data, second=data + b"NO")
        for entries in (0, 1, 2, 31, 32, 33, 63, 64, 65):
            yield case(EXAMINE, n, entries=entries, word=table_of(min(n, 6), data), data=data)
    for n in range(7):
        for setting in (0, (1 << n) - 1, 1 << n, (1 << n) + 1, 64, LARGEST):
            yield case(EVALUATE, n, setting=setting, data=b"CO\1")
        for word in (0, 1, (1 << (1 << n)) - 1, min(1 << (1 << n), LARGEST), LARGEST, 1 << 63):
            for entries in (0, 1, 2):
                yield case(RAW, n, entries=entries, word=word)
        for index in (0, n - 1, n, n + 1, 255):
            if index >= 0:
                for data in (b"VA" + bytes([index]), b"CO" + bytes([index])):
                    yield case(COSTING, n, data=data)
    for data in (b"", b"V", b"VA", b"C", b"CO", b"A", b"AN", b"N", b"NO", b"OR", b"XO", b"XX", b"VB\0", b"va\0", b"CO\1V", b"CO\1VA"):
        for call in (EVALUATE, COSTING):
            yield case(call, 3, data=data)
        yield case(EXAMINE, 1, entries=2, word=2, data=data)
    long = one + b"NO" * 384
    for data in (long, long + b"NO", long + b"V", long + b"XX", one * 385, one * 386, one * 193 + b"XO" * 192, one * 193 + b"OR" * 192, one * 194 + b"AN" * 192, one + one + b"AN", b"CO\0", one + b"V", one + one, b"AN", b"VA\1"):
        yield from whole(1, data, 2)
    for data in (one, one + b"NO", one + one + b"OR", one + one + b"OR" + one + b"OR", one + one + one + b"OR" + b"OR"):
        for second in (one, one + b"NO", one + one + b"AN", one + one + b"NO" + b"AN", b"", b"XX"):
            yield case(CHEAPER, 1, data=data, second=second)
            yield case(CHEAPER, 1, data=second, second=data)


def random_cases():
    for k in range(260):
        n = k % 7
        data = expression(n, 1 + rng.randrange(40))
        table = table_of(n, data)
        yield from whole(n, data, table)
        yield case(EXAMINE, n, entries=64, word=table ^ 1 << rng.randrange(1 << n), data=data)
        yield case(CHEAPER, n, data=data, second=expression(n, 1 + rng.randrange(40)))
        yield case(RAW, n, entries=1, word=rng.getrandbits(1 << n))
    for k in range(30):
        n = 1 + k % 6
        data = expression(n, 2 + rng.randrange(7))
        table = table_of(n, data)
        for bad in damaged(n, data):
            yield rng.choice(list(whole(n, bad, table)))


def wrong():
    """A right case, and then cases in which one number of the outcome differs: of each call the first result, of a refusal its number and its
    place, and every result of costing, which has more than one."""
    rule = b"VA\0VA\1OR"
    yield case(COSTING, 2, data=rule)
    for right in (
        case(EVALUATE, 2, setting=1, data=rule),
        case(EXAMINE, 2, entries=4, word=14, data=rule),
        case(RAW, 2, entries=1, word=14),
        case(CHEAPER, 2, data=rule, second=b"VA\0"),
    ):
        yield changed(right, 32)
    refused = case(EXAMINE, 2, entries=4, word=6, data=rule)
    yield changed(refused, 31)
    yield changed(refused, 32)
    for at in (32, 34, 36):
        yield changed(case(COSTING, 2, data=rule), at)


def changed(right, at):
    return right[:at] + bytes([right[at] ^ 1]) + right[at + 1 :]


sys.setrecursionlimit(10_000)
rng = random.Random(5)


def main():
    if len(sys.argv) != 2:
        sys.exit("use: expression_cases.py FOLDER")
    out = b"".join(list(rows()) + list(random_cases()))
    Path(sys.argv[1], "cases.bin").write_bytes(out)
    Path(sys.argv[1], "wrong_cases.bin").write_bytes(b"".join(wrong()))


if __name__ == "__main__":
    main()
