#!/usr/bin/env python3
"""Records readings of rule packages and writings of rules in the folder named: full packages of the original Rust's rules, a package cut at every
byte, one with every byte changed to every value, and each refusal at its edges and in its order; and some with a wrong answer in wrong_readings.bin
and wrong_writings.bin. It rests on request 4 of document 02 and, for what the examiner answers, on the model of document 01 in expression_cases.py;
nothing of the library is used. The original's rules are read from replay_rules/data. The formats are in the README beside the recorded files.
"""

import random
import sys
from functools import lru_cache
from pathlib import Path

import expression_cases as document_01
from expression_cases import EXAMINE, LARGEST, Refusal, damaged, expression, table_of

RULES = Path(__file__).resolve().parent.parent / "crates" / "replay_rules" / "data"


# ---- the model: "Each rule is the mark `RU`, one byte of flag count, two bytes of expression length (low byte first), eight table bytes (low first,
# bit s for setting s), then the expression."

MARK = b"RU"
HEADER = 13
LIMIT = 65_536


@lru_cache(maxsize=None)
def examined(n, table, data):
    """The examiner's refusal of an expression against its own table, as number and place; none where it accepts."""
    try:
        document_01.answer(EXAMINE, n, 0, 64, table, data, b"")
    except Refusal as refusal:
        return refusal.number, refusal.place
    return None


def checked(n, table, data):
    """1, 17 and the examiner's numbers, with the places of a rule by itself."""
    if n > 6:
        raise Refusal(1, 0)
    if table >> (1 << n):
        raise Refusal(17, 0)
    found = examined(n, table, data)
    if found:
        raise Refusal(*found)


def rule_bytes(n, table, data):
    return MARK + bytes([n]) + len(data).to_bytes(2, "little") + table.to_bytes(8, "little") + data


def write(n, table, data, room):
    """The bytes that the writer puts at the front of a buffer of that many bytes."""
    checked(n, table, data)
    rule = rule_bytes(n, table, data)
    if len(rule) > room:
        raise Refusal(5, len(rule))
    return rule


def read(package, place):
    """The rule at a place: flag count, table word, start and length of the expression, next place; none at the end."""
    if len(package) > LIMIT:
        raise Refusal(16, 0)
    if place >= len(package):
        return None
    rest = package[place:]
    if rest[:2] != MARK:
        raise Refusal(15, place)
    if len(rest) < HEADER:
        raise Refusal(16, place)
    n, length, table = rest[2], int.from_bytes(rest[3:5], "little"), int.from_bytes(rest[5:HEADER], "little")
    if len(rest) < HEADER + length:
        raise Refusal(16, place)
    start = place + HEADER
    try:
        checked(n, table, package[start : start + length])
    except Refusal as refusal:
        raise Refusal(refusal.number, counted_from_start(refusal, place)) from None
    return n, table, start, length, start + length


def counted_from_start(refusal, place):
    """ "all at the rule's first byte, then the examiner's numbers, byte places counted from the package start and those of 12 and 13 as before" """
    if refusal.number in (1, 17):
        return place
    if refusal.number in (12, 13):
        return refusal.place
    return place + HEADER + refusal.place


# ---- the formats

UNCHANGED = 2**32 - 1
PATTERN = b"\xa5"


def opened(base):
    """What a file of readings starts with."""
    return len(base).to_bytes(4, "little") + base


def reading(base, place, handed=None, at=UNCHANGED, value=0):
    """A reading at a place, where so many bytes of the package are handed in, one of them changed."""
    size = len(base) if handed is None else handed
    package = base[:size]
    if at < size:
        package = package[:at] + bytes([value]) + package[at + 1 :]
    kind, number, n, table, start, length, after = 0, 0, 0, 0, 0, 0, 0
    try:
        rule = read(package, place)
        if rule:
            kind = 1
            n, table, start, length, after = rule
    except Refusal as refusal:
        kind, number, after = 2, refusal.number, refusal.place
    out = size.to_bytes(4, "little") + at.to_bytes(4, "little") + bytes([value]) + place.to_bytes(8, "little")
    out += bytes([kind, number, n]) + table.to_bytes(8, "little")
    return out + start.to_bytes(4, "little") + length.to_bytes(2, "little") + after.to_bytes(4, "little")


def writing(n, table, data, room):
    """A writing: its head, the expression, and all that the buffer must hold afterwards."""
    number, left = 0, PATTERN * room
    try:
        rule = write(n, table, data, room)
        result, left = len(rule), rule + left[len(rule) :]
    except Refusal as refusal:
        number, result = refusal.number, refusal.place
    out = n.to_bytes(8, "little") + table.to_bytes(8, "little") + len(data).to_bytes(2, "little") + room.to_bytes(2, "little")
    return out + bytes([number]) + result.to_bytes(2, "little") + data + left


# ---- the original's rules: flag count, table word, expression

RNG = random.Random(17)
CODES = [b"CO\0", b"CO\1"] + [b"VA" + bytes([i]) for i in range(8)] + [b"AN", b"OR", b"XO", b"NO"]


def recorded_answer(data, at):
    """The expression of an answer of replay_rules/data, and the place behind it."""
    records = int.from_bytes(data[at + 4 : at + 6], "little")
    codes = data[at + 6 : at + 6 + (records + 1) // 2]
    return b"".join(CODES[codes[i // 2] >> 4 * (i % 2) & 15] for i in range(records)), at + 6 + len(codes)


def small_rules():
    """Of every table of up to 4 flags."""
    data, at = (RULES / "small.bin").read_bytes(), 0
    for n in range(5):
        for table in range(1 << (1 << n)):
            rule, at = recorded_answer(data, at)
            yield n, table, rule


def sampled_rules():
    """Of 5 and 6 flags."""
    data, at = (RULES / "samples.bin").read_bytes(), 0
    while at < len(data):
        n, table = data[at], int.from_bytes(data[at + 1 : at + 9], "little")
        rule, at = recorded_answer(data, at + 9)
        yield n, table, rule


# ---- rules that the original does not write

EITHER = b"VA\0VA\1OR"


def product(mask):
    flags = [i for i in range(6) if mask >> i & 1]
    return b"".join(b"VA" + bytes([i]) + (b"AN" if k else b"") for k, i in enumerate(flags))


def folded(terms):
    if len(terms) < 2:
        return terms[0] if terms else b"CO\0"
    half = len(terms) // 2
    return folded(terms[:half]) + folded(terms[half:]) + b"XO"


def raw_form(n, table):
    """ "constant 1 first, then monomials in list order; a balanced fold" """
    word = document_01.coefficients(n, table)
    masks = sorted((m for m in range(1 << n) if word >> m & 1), key=lambda m: (bin(m).count("1"), m))
    return folded([product(m) if m else b"CO\1" for m in masks])


def full(n):
    return (1 << (1 << n)) - 1


def chain(leaves, turns=0):
    """An OR of so many leaves, the six flags in turn, turned over so many times: 5 bytes a leaf, less 2, and 2 a turn."""
    return b"".join(b"VA" + bytes([i % 6]) + (b"OR" if i else b"") for i in range(leaves)) + b"NO" * turns


def hand_made():
    """Constants, single flags and raw forms at every flag count, and redundant expressions within the raw cost."""
    for n in range(7):
        yield n, 0, b"CO\0"
        yield n, full(n), b"CO\1"
        # 1 at setting 0 alone: the raw form has every monomial and the constant, of six flags 385 records in 963 bytes
        yield n, 1, raw_form(n, 1)
        for data in (b"VA" + bytes([n - 1]), b"VA" + bytes([n - 1]) + b"NO") if n else ():
            yield n, table_of(n, data), data
        for _ in range(3):
            table = RNG.getrandbits(1 << n)
            yield n, table, raw_form(n, table)
    for rest in (b"NO" * 4, b"CO\0XO", b"VA\1OR", b"VA\1ORVA\0OR", b"CO\1ANCO\1AN"):
        yield 2, 14, EITHER + rest
    yield 2, 14, b"VA\0NOVA\1NOANNO"
    # 254 to 258 bytes, and 511 to 513, where the length's high byte begins to count; and 385 records
    for leaves, turns in ((50, 3), (51, 1), (50, 4), (51, 2), (52, 0), (101, 4), (102, 2), (103, 0), (193, 0)):
        data = chain(leaves, turns)
        yield 6, table_of(6, data), data
    yield 6, 1 << 63, product(63)


def refused_expressions():
    """Each number of the examiner at its edges, with the table that it is examined against."""
    one = b"VA\0"
    for data in (b"V", b"XX", b"VB\0", b"va\0", EITHER + b"V", EITHER + b"XX", b"CO\1C", b"RU", rule_bytes(0, 0, b"CO\0")):
        yield 2, 14, data
    for data in (b"VA", b"CO", b"VA\2", b"CO\2", b"CO\xff", EITHER + b"VA", EITHER + b"VA\2AN", one + b"CO\2XO"):
        yield 2, 14, data
    for n in range(7):
        yield n, 0, b"VA" + bytes([n])
    for data in (b"AN", b"OR", b"XO", b"NO", one + b"AN", EITHER + b"XO", EITHER + b"OR" + one):
        yield 2, 14, data
    for data in (b"", one + one, EITHER + one, one * 385):
        yield 2, 14, data
    long = one + b"NO" * 384
    for data in (long + b"NO", long + b"V", long + b"XX", one * 386, one * 193 + b"OR" * 192 + one, chain(193, 1)):
        yield 6, table_of(6, one), data
    for n in range(7):
        for s in sorted({0, (1 << n) // 2, (1 << n) - 1}):
            yield n, 1 << s, b"CO\0"
            yield n, full(n) ^ 1 << s, b"CO\1"
    # several settings differ; it differs and costs too much
    yield 6, LARGEST ^ 1 << 40 ^ 1 << 63, b"CO\1"
    yield 2, 6, EITHER + b"NO" * 6
    for data in (one + one + b"AN", one + b"NO" * 2, long, EITHER + b"NO" * 6, one * 193 + b"OR" * 192):
        yield 2, table_of(2, data), data
    yield 6, 0, b"CO\0NONO"


def refused_rules():
    """The bytes of rules that are refused, most for several reasons, so that the order shows."""
    for mark in (b"RV", b"SU", b"ru", b"UR", b"\0\0", b"RR", b"UU", b"R\xd5"):
        yield mark + rule_bytes(2, 14, EITHER)[2:]
        yield mark + rule_bytes(7, 1 << 63 | 14, b"XX")[2:]
    for n in (7, 8, 64, 128, 255):
        yield rule_bytes(n, 14, EITHER)
        yield rule_bytes(n, LARGEST, b"XX")
        yield rule_bytes(n, 0, b"")
    for n in range(6):
        for bit in (1 << n, (1 << n) + 1, 63):
            yield rule_bytes(n, 1 << bit, b"CO\0")
            yield rule_bytes(n, 1 << bit | 1, b"")
            yield rule_bytes(n, 1 << bit, b"XX")
    for n, table, data in refused_expressions():
        yield rule_bytes(n, table, data)
        yield rule_bytes(n + 7, table, data)
        if n < 6:
            yield rule_bytes(n, table | 1 << 63, data)


# ---- packages


def end_to_end(rules):
    """A package, and the first byte of each of its rules."""
    package, places = b"", []
    for rule in rules:
        places.append(len(package))
        package += rule_bytes(*rule)
    return package, places


SHORT = {16: (1, 2, b"VA\0"), 18: (1, 1, b"VA\0NO"), 21: (2, 14, EITHER)}


def short_rules(size):
    """Rules of so many bytes in all, or none."""
    if size == 0:
        return []
    for length in SHORT:
        rest = short_rules(size - length) if length <= size else None
        if rest is not None:
            return [SHORT[length]] + rest
    return None


def filled(rules):
    """These rules as far as they fit into a package, and short ones so that it has the greatest length to the byte."""
    kept, size = [], 0
    for rule in rules:
        length = HEADER + len(rule[2])
        if size + length + 150 <= LIMIT:
            kept.append(rule)
            size += length
    return kept + short_rules(LIMIT - size)


def few_rules(rules):
    """Some of each flag count, of those drawn the shorter."""
    chosen = []
    for n, count in enumerate((1, 2, 3, 2, 2, 2, 1)):
        drawn = RNG.sample([r for r in rules if r[0] == n], 2 * count)
        chosen += sorted(drawn, key=lambda r: len(r[2]))[:count]
    return chosen


# ---- the readings


def full_package(rules):
    """A package of the greatest length with one more rule behind it: each rule, the end, and what a byte more or less changes."""
    base, places = end_to_end(filled(rules) + [SHORT[16]])
    yield opened(base)
    for place in places + [LIMIT + 1, LIMIT + 16, 2**32, LARGEST]:
        yield reading(base, place, LIMIT)
    for handed in (LIMIT - 15, LIMIT - 1, LIMIT + 1, LIMIT + 2, LIMIT + 15, LIMIT + 16):
        for place in (0, 1, places[1], places[-2], places[-2] + 1, LIMIT, handed - 1, handed, handed + 1, LARGEST):
            yield reading(base, place, handed)
        # what stands in an overlong package does not count
        for at, value in ((0, 0), (2, 7), (3, 0), (5, 255)):
            yield reading(base, 0, handed, at, value)
    # half a mark in the last byte, and a length whose high byte is the greatest
    yield reading(base, LIMIT - 1, LIMIT, LIMIT - 1, MARK[0])
    size = HEADER + 255 * 256 + base[3]
    for handed in (size - 1, size, size + 1, LIMIT):
        yield reading(base, 0, handed, 4, 255)


def cuts(rules):
    """A package cut at every byte, asked at the first rule, at the cut one and at the end; and the whole asked at every place."""
    base, places = end_to_end(few_rules(rules))
    ends = places[1:] + [len(base)]
    yield opened(base)
    for handed in range(len(base) + 1):
        here = max(p for p in places if p <= max(handed - 1, 0))
        for place in sorted({0, here, handed, handed + 1}):
            yield reading(base, place, handed)
    for place in range(len(base) + 3):
        yield reading(base, place)
    for place, end in zip(places, ends):
        yield from cut_and_changed(base, place, end)
        yield from wrong_lengths(base, place)


def cut_and_changed(base, place, end):
    """A rule that is cut and whose mark, flag count, table or expression would be refused too."""
    sizes = {place + k for k in (1, 2, 3, 5, 12, 13)} | {end - 1, end, min(end + 1, len(base))}
    for handed in sorted(sizes):
        for at, value in ((0, 0), (1, 0), (2, 7), (2, 255), (12, 255), (13, 0)):
            yield reading(base, place, handed, place + at, value)


def wrong_lengths(base, place):
    """A rule whose header has a length that is not the expression's."""
    low, high = base[place + 3], base[place + 4]
    near = {low + k for k in (-13, -5, -3, -2, -1, 1, 2, 3, 5, 13)}
    for value in sorted((near | {0, 1, 2, 3, 4, 127, 128, 255}) - {low}):
        if 0 <= value < 256:
            yield reading(base, place, at=place + 3, value=value)
    for value in sorted({0, 1, 2, 3, 4, 128, 255} - {high}):
        yield reading(base, place, at=place + 4, value=value)


def changes():
    """A small package with every byte changed to every value, asked at each rule."""
    base, places = end_to_end([(2, 2, b"VA\0VA\1NOAN"), (0, 1, b"CO\1")])
    yield opened(base)
    for at in range(len(base)):
        for value in range(256):
            for place in places:
                yield reading(base, place, at=at, value=value)


def edges():
    """Hand-made and refused rules one after another, each asked at its place; every table bit, every flag count, and places far past the end."""
    good, refused = [rule_bytes(*rule) for rule in hand_made()], list(refused_rules())
    constants = [rule_bytes(n, 0, b"CO\0") for n in range(7)] + [rule_bytes(6, LARGEST, b"CO\1")]
    # a whole rule in the expression of a refused one, and a good one behind bytes that are no rule
    odd = [rule_bytes(2, 14, good[0]), b"\0RURU", good[1], b"R"]
    parts = good + refused + constants + odd
    base = b"".join(parts)
    places = [sum(map(len, parts[:k])) for k in range(len(parts))]
    first, last = places[len(good) + len(refused)], places[len(good) + len(refused) + 7]
    yield opened(base)
    for place in places + list(range(places[-4], len(base))):
        yield reading(base, place)
    for place in range(first, last, 16):
        for bit in range(64):
            yield reading(base, place, at=place + 5 + bit // 8, value=1 << bit % 8)
    for place in (first, last):
        for value in range(256):
            yield reading(base, place, at=place + 2, value=value)
    for place, part in zip(places, good):
        if len(part) > HEADER + 253:
            yield from wrong_lengths(base, place)
            for size in (HEADER, HEADER + 255, HEADER + 256, HEADER + 257, len(part) - 1, len(part), len(part) + 1):
                yield reading(base, place, place + size)
    # "none is a valid count of rules"
    for handed in (0, 1, 2, 16, len(base)):
        for place in (0, 1, 2, 16, len(base) - 1, len(base), len(base) + 1, LIMIT, 2**32, 2**63, LARGEST):
            yield reading(base, place, handed)


def wrong_readings():
    """A right reading, and then readings in each of which one thing is wrong: a number of a rule's answer, the kind of the end or of a refusal, a
    number that they have or lack, the answer of another question, more bytes handed in than there are."""
    base, places = end_to_end([(2, 14, EITHER), (6, LARGEST, b"CO\1"), (0, 2, b"CO\0"), (2, 14, b"VA\0XX")])
    rule, stray, unknown, end = (reading(base, place) for place in places[1:] + [len(base)])
    yield opened(base)
    yield rule
    for at, bits in ((17, 1), (17, 3), (18, 1), (19, 1), (19, 8), (20, 1), (24, 8), (27, 128), (28, 1), (31, 1), (32, 2), (33, 1), (34, 1), (37, 1)):
        yield changed(rule, at, bits)
    for at, bits in ((17, 1), (17, 2), (18, 15), (19, 1), (20, 1), (28, 1), (32, 1), (34, 1)):
        yield changed(end, at, bits)
    for refused in (stray, unknown):
        for at, bits in ((17, 2), (17, 3), (18, 1), (19, 2), (20, 1), (28, 1), (32, 1), (34, 1), (34, 13)):
            yield changed(refused, at, bits)
    yield rule[:17] + end[17:]
    yield rule[:17] + reading(base, 0)[17:]
    yield rule[:17] + reading(base, places[1], at=places[1] + HEADER)[17:]
    yield changed(rule, 3, 1)


# ---- the writings


def rooms(n, table, data):
    """One rule with no room, with too little and with enough."""
    size = HEADER + len(data)
    for room in (0, 1, HEADER, size - 1, size, size + 1, size + 9):
        yield writing(n, table, data, room)


def written_rules(rules):
    """The original's rules in the room that they need, and some in a byte less and in more."""
    for k, rule in enumerate(rules):
        size = HEADER + len(rule[2])
        yield writing(*rule, size)
        if k % 8 == 0:
            yield writing(*rule, size - 1)
            yield writing(*rule, size + 1 + k % 7)


def refused_writings():
    """1, 17, the examiner's numbers and 5, each with those that come after it."""
    bad = b"VA\0XX"
    for n in (7, 8, 9, 16, 17, 63, 64, 255, 256, 257, 65_536, 2**32, 2**32 + 2, 2**63, LARGEST):
        for table in (0, 14, LARGEST):
            for data in (EITHER, bad, b""):
                for room in (0, HEADER + len(data)):
                    yield writing(n, table, data, room)
    for n in range(7):
        for bit in range(64):
            yield writing(n, 1 << bit, b"CO\0", 16)
        for bit in sorted({min(1 << n, 63), 63}):
            for data in (b"CO\1", bad, b""):
                for room in (0, 15, 40):
                    yield writing(n, 1 << bit | 1, data, room)
    for n, table, data in refused_expressions():
        for room in (0, HEADER + len(data)):
            yield writing(n, table, data, room)
        if n < 6:
            yield writing(n, table | 1 << (1 << n), data, 0)
        yield writing(7, table, data, 0)


def random_writings():
    """Random expressions with their own table, with one bit of it changed and with any word, and damaged ones."""
    for k in range(210):
        n = k % 7
        data = expression(n, 1 + RNG.randrange(24))
        table = table_of(n, data)
        yield writing(n, table, data, HEADER + len(data) + RNG.randrange(-1, 2))
        yield writing(n, table ^ 1 << RNG.randrange(1 << n), data, HEADER + len(data))
        yield writing(n, RNG.getrandbits(64), data, RNG.choice((0, HEADER + len(data))))
    for k in range(12):
        n = 1 + k % 6
        data = expression(n, 2 + RNG.randrange(7))
        table = table_of(n, data)
        for bad in damaged(n, data):
            yield writing(n, table, bad, RNG.choice((0, HEADER + len(bad))))


def writings(rules):
    for n, table, data in hand_made():
        yield from rooms(n, table, data)
    for table in (0, 1, 2):
        for data in (b"CO\0", b"CO\1"):
            yield writing(0, table, data, 16)
    yield from written_rules(rules)
    yield from refused_writings()
    yield from random_writings()


def wrong_writings():
    """A right writing, and then writings in each of which one thing is wrong: a refusal for a rule, the length, a byte of each part of the rule, a
    byte past it, all bytes unwritten; of a refusal a rule in its place, its number, its place, the first or the last byte of the buffer."""
    right, short, unknown = writing(2, 14, EITHER, 24), writing(2, 14, EITHER, 20), writing(2, 14, b"VA\0XX", 24)
    yield right
    for at, bits in ((20, 5), (21, 1), (22, 1)):
        yield changed(right, at, bits)
    for at in (0, 1, 2, 3, 4, 5, 12, 13, 20, 21, 23):
        yield changed(right, 31 + at, 1)
    yield right[:31] + PATTERN * 24
    for refused in (short, unknown):
        for at, bits in ((20, refused[20]), (20, 1), (21, 1), (22, 1), (23 + refused[16], 1), (len(refused) - 1, 1)):
            yield changed(refused, at, bits)


def changed(outcome, at, bits):
    return outcome[:at] + bytes([outcome[at] ^ bits]) + outcome[at + 1 :]


def main():
    if len(sys.argv) != 2:
        sys.exit("use: package_cases.py FOLDER")
    document_01.rng = RNG
    small, sampled = list(small_rules()), list(sampled_rules())
    few = [r for r in small if r[0] < 4] + RNG.sample([r for r in small if r[0] == 4], 1200)
    many = RNG.sample(sampled, 1200)
    files = {
        "full_small.bin": full_package(few),
        "full_samples.bin": full_package(many),
        "cuts.bin": cuts(small + sampled),
        "changes.bin": changes(),
        "edges.bin": edges(),
        "writings.bin": writings(few[:800:2] + many[:600]),
        "wrong_readings.bin": wrong_readings(),
        "wrong_writings.bin": wrong_writings(),
    }
    for name, items in files.items():
        Path(sys.argv[1], name).write_bytes(b"".join(items))


if __name__ == "__main__":
    main()
