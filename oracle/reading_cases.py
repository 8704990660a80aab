#!/usr/bin/env python3
"""Records readings of single records in readings.bin of the folder named: expressions asked at every place and far past their end, good, damaged and
made by hand, each refusal at its edges and in its order, and expressions of 384 to 387 records; and readings with a wrong answer in
wrong_readings.bin. It rests on document 01 and on request 5 of document 02: the model below is written from their text, apart from the library and
from the model in expression_cases.py, of which it uses the makers of random and damaged expressions alone. It says how many readings of each kind it
wrote. The format is in the README beside the recorded files.
"""

import random
import sys
from collections import Counter
from functools import lru_cache
from pathlib import Path
from typing import NamedTuple

import expression_cases as document_01
from expression_cases import LARGEST, damaged, expression

# ---- the model: "The record reader shall give, for each operator, the first byte of each operand besides the next place. For this it reads the
# records from byte 0 by rows 9, 6, 7, 8"

RECORDS = 385
FLAGS = 6
OPERANDS = {b"CO": 0, b"VA": 0, b"NO": 1, b"AN": 2, b"OR": 2, b"XO": 2}
OPERATORS = {b"AN": 10, b"OR": 11, b"XO": 12, b"NO": 13}
END = 255


class Record(NamedTuple):
    first: int
    code: int
    next: int
    starts: list


@lru_cache(maxsize=None)
def records(n, data):
    """The records from byte 0 on, up to the first that is refused; and its refusal, as number and place, or None where all bytes are read."""
    found, at = [], 0
    # the first byte of each operand that no operator has taken so far
    left = []
    while at < len(data):
        mark, payload = data[at : at + 2], data[at + 2 : at + 3]
        if len(found) == RECORDS:
            return found, (9, at)
        if mark not in OPERANDS:
            return found, (6, at)
        width = 2 if mark in OPERATORS else 3
        if width == 3 and (payload == b"" or payload[0] >= (2 if mark == b"CO" else n)):
            return found, (7, at)
        if len(left) < OPERANDS[mark]:
            return found, (8, at)
        starts = [left.pop() for _ in range(OPERANDS[mark])][::-1]
        # an operator is an operand from here on, and begins where its first one does
        left.append(starts[0] if starts else at)
        code = OPERATORS[mark] if mark in OPERATORS else payload[0] + (2 if mark == b"VA" else 0)
        found.append(Record(at, code, at + width, starts))
        at += width
    return found, None


def read(n, data, place):
    """What the documents say: 0, the record's code, the next place and the operands' first bytes; or a refusal's number and place."""
    if n > FLAGS:
        return (1, 0, 0, 0, 0)
    found, refusal = records(n, data)
    # "the refusal of a record that begins before the place comes first"; and the record at the place has its own
    if refusal and refusal[1] <= place:
        return refusal + (0, 0, 0)
    # "at or past the length is the end, unless an earlier record is refused"
    if place >= len(data):
        return (0, END, 0, 0, 0)
    for record in found:
        if record.first == place:
            return (0, record.code, record.next) + tuple(record.starts + [0, 0])[:2]
    # "Number 8 also meets, and gives, a place below the byte length that is not the first byte of a record"
    return (8, place, 0, 0, 0)


def item(n, data, place, outcome):
    """One reading; to_bytes raises where a number does not fit."""
    out = n.to_bytes(8, "little") + place.to_bytes(8, "little") + len(data).to_bytes(2, "little") + bytes([outcome[0]])
    return out + b"".join(number.to_bytes(2, "little") for number in outcome[1:]) + data


# ---- the expressions

RNG = random.Random(50)
FAR = (1000, 65_536, 2**32, LARGEST)
# flag counts and expressions of document 01's marked rules
MARKED = [
    (0, "CO0"),
    (0, "CO1"),
    (1, "CO1 VA0 XO"),
    (2, "VA0 VA1 XO"),
    (2, "VA0 VA1 OR"),
    (2, "VA0 VA1 NO AN"),
    (3, "VA0 VA1 VA2 NO AN AN"),
    (3, "VA0 VA1 VA2 XO AN VA1 VA2 AN XO"),
    (3, "VA0 VA1 OR VA2 OR"),
    (3, "VA0 VA1 OR VA2 XO"),
    (3, "CO1 VA0 VA1 OR VA2 OR XO"),
]
# well formed: both operands nested, the first alone, the second alone, NO of a large operand, as a first and as a second operand, NO of NO, and AN
# before OR, where the bytes inside are those of NO
WELL_FORMED = [
    "VA0 VA1 AN VA2 VA3 OR XO",
    "VA0 VA1 AN VA2 OR VA3 XO VA4 AN",
    "VA0 VA1 VA2 VA3 VA4 AN OR XO AN",
    "VA0 VA1 AN VA2 VA3 OR XO VA4 VA5 AN CO1 XO OR",
    "VA0 VA1 AN VA2 VA3 OR XO NO",
    "VA0 VA1 AN VA2 XO NO VA3 OR",
    "VA3 VA0 VA1 AN VA2 XO NO OR",
    "VA0 NO NO NO",
    "VA0 NO VA1 NO AN NO",
    "VA0 VA1 VA2 AN OR",
    "VA5 VA5 VA5 AN AN",
]
# operands left over, below the ones that are taken and at the end
LEFT_OVER = [
    "VA0 VA1",
    "CO0 CO1 VA0 VA1 VA2",
    "CO1 VA0 VA1 AN",
    "VA0 VA1 VA2 VA3 OR NO XO",
    "VA0 NO VA1 VA2 AN VA3 NO",
    "VA0 VA1 AN VA2 VA3 AN VA4 VA5 AN XO",
]
# an operator that lacks operands: as the first record, in the middle, as the last
LACKING = [
    "AN",
    "OR",
    "XO",
    "NO",
    "NO VA0",
    "AN VA0 VA1 AN",
    "VA0 AN",
    "VA0 OR VA1 VA2 XO",
    "VA0 NO XO VA1",
    "VA0 VA1 AN AN VA2 OR",
    "VA0 VA1 VA2 XO AN OR NO VA3",
    "VA0 VA1 VA2 XO AN VA3 OR XO",
]
# no bytes; a mark that is cut or unknown and a payload that is absent or too large, as the first record, in the middle and as the last
BYTES = [
    b"",
    b"V",
    b"C",
    b"A",
    b"N",
    b"\0",
    b"VA",
    b"CO",
    b"XX",
    b"VB\0",
    b"va\0",
    b"AV\0",
    b"CO\2",
    b"CO\xff",
    b"VA\6",
    b"VA\xff",
    b"VAAN",
    b"COCO\1",
    b"XXVA\0NO",
    b"CO\2NO",
    b"VA\7VA\0VA\1AN",
    b"VA\0V",
    b"VA\0VA",
    b"VA\0CO",
    b"VA\0VA\1A",
    b"VA\0VA\1ANO",
    b"VA\0VA\1ANN",
    b"VA\0VA\1ANNOX",
    b"VA\0XXVA\1OR",
    b"VA\0VA\6ANNO",
    b"VA\0CO\2XOVA\1",
    b"VA\0VA\1ANVA\2XXNO",
    b"VA\0VA\1ANVA\2CO\2ORXO",
    b"VA\0NOVA\1CO",
    b"VA\0\0",
    b"CO\1\1NO",
    b"\0CO\1",
]


def postfix(text):
    """The bytes of records in document 01's notation."""
    return b"".join(word[:2].encode() + (bytes([int(word[2:])]) if word[2:] else b"") for word in text.split())


def firsts(data):
    """The first bytes of what would be the records, as far as their marks tell, and the length."""
    at = [0]
    while at[-1] < len(data):
        at.append(min(len(data), at[-1] + (3 if data[at[-1] : at[-1] + 2] in (b"CO", b"VA") else 2)))
    return at


def damages(data):
    """One of each damage: a byte changed, dropped, doubled, a record dropped, doubled, and a cut."""
    i = RNG.randrange(len(data))
    yield data[:i] + bytes([data[i] ^ 1 << RNG.randrange(8)]) + data[i + 1 :]
    i = RNG.randrange(len(data))
    yield data[:i] + data[i + 1 :]
    yield data[: i + 1] + data[i:]
    at = firsts(data)
    k = RNG.randrange(len(at) - 1)
    yield data[: at[k]] + data[at[k + 1] :]
    yield data[: at[k + 1]] + data[at[k] :]
    yield data[: RNG.randrange(len(data))]


def asked_everywhere():
    """Flag counts and expressions that are asked at every place."""
    for n, text in MARKED:
        yield n, postfix(text)
    for text in ("VA0 VA0 AN", "CO0", "VA0 VA0", "AN", "VA1"):
        yield 1, postfix(text)
    yield 1, b"VA\0V"
    for text in WELL_FORMED + LEFT_OVER + LACKING:
        yield 6, postfix(text)
    for data in BYTES:
        yield 6, data
    for n in range(7):
        for index in (0, n - 1, n, n + 1):
            if index >= 0:
                yield n, postfix(f"CO1 VA{index} XO")
    # well formed, of every length
    for k in range(105):
        yield k % 7, expression(k % 7, 1 + k % 25)
    # short ones with every damage, and cut at every byte
    for k in range(4):
        n = 2 + k
        data = expression(n, 6 + k % 2)
        yield n, data
        for bad in damaged(n, data):
            yield n, bad
        for length in range(len(data)):
            yield n, data[:length]
    # longer ones with one of each damage
    for k in range(6):
        data = expression(1 + k, 15 + 2 * k)
        for bad in damages(data):
            yield 1 + k, bad
    # records in any order, and bytes in any order
    for k in range(30):
        yield 3, b"".join(RNG.choice((b"VA\0", b"VA\1", b"VA\2", b"CO\1", b"AN", b"OR", b"XO", b"NO")) for _ in range(2 + k % 10))
    for k in range(30):
        yield 1 + k % 6, bytes(RNG.choice(b"VVAANNOORRXCO\0\1\2\6\xff") for _ in range(1 + k % 12))


def long():
    """Expressions of about as many records as are allowed, and others whose places take two bytes; all of one flag."""
    flag = b"VA\0"
    most = flag + b"NO" * (RECORDS - 1)
    for count in (384, 385, 386, 387):
        yield flag + b"NO" * (count - 1)
    # a 386th record is refused by 9 whatever it is
    for rest in (b"V", b"XX", b"CO", b"CO\2", b"AN", b"VA\0"):
        yield most + rest
    yield flag * 193 + b"XO" * 192
    yield flag * 193 + b"XO" * 193
    yield flag + (flag + b"OR") * 192
    yield flag + (flag + b"NOAN") * 128
    yield flag * 385
    yield flag * 386
    # 200 flags and then what is refused, and operators until one lacks operands
    yield flag * 200 + b"XX"
    yield flag * 120 + b"AN" * 120


def places(data):
    """The places at which a long one is asked: near the start, some between, near the 385th and the 386th record, near the end and past it."""
    at = firsts(data)
    chosen = {0, 3, 4, len(data) - 1, len(data), len(data) + 1, LARGEST}
    for k, beside in ((193, 0), (300, 1), (383, 0), (384, 0), (384, 1), (385, 0), (385, 1)):
        if k < len(at):
            chosen.add(at[k] + beside)
    return sorted(chosen)


def questions():
    """Every reading's flag count, expression and place; some come twice."""
    for n, data in asked_everywhere():
        for place in list(range(len(data) + 3)) + list(FAR):
            yield n, data, place
    for data in long():
        for place in places(data):
            yield 1, data, place
    # more than six flags come first of all
    for n in (7, 8, 16, 2**32, LARGEST):
        for data in (b"", postfix("VA0 VA1 OR"), postfix("VA6"), b"XX", b"V", b"VA\0" * 386):
            for place in (0, 1, len(data), len(data) + 1, LARGEST):
                yield n, data, place


# ---- wrong answers


def wrong():
    """A right reading, and then readings in each of which one thing is wrong, told in the list below."""
    rule = postfix("VA0 VA1 VA2 XO AN VA1 VA2 AN XO")
    turned = postfix("VA0 VA1 AN VA2 XO NO")
    lacking = postfix("VA0 AN VA1 VA2 XO")
    most = b"VA\0" + b"NO" * 384
    yield 3, rule, 11, read(3, rule, 11)
    for n, data, place, right, answered in (
        # the kind, the next place and both starts of a binary operator; a kind of one operand for one of two
        (3, rule, 11, (0, 10, 13, 0, 3), (0, 11, 13, 0, 3)),
        (3, rule, 11, (0, 10, 13, 0, 3), (0, 13, 13, 0, 3)),
        (3, rule, 11, (0, 10, 13, 0, 3), (0, 10, 14, 0, 3)),
        (3, rule, 11, (0, 10, 13, 0, 3), (0, 10, 13, 3, 3)),
        (3, rule, 11, (0, 10, 13, 0, 3), (0, 10, 13, 0, 6)),
        # the second start is that of the record before, the first that of the record before the second operand
        (3, rule, 11, (0, 10, 13, 0, 3), (0, 10, 13, 0, 9)),
        (3, rule, 21, (0, 12, 23, 0, 13), (0, 12, 23, 0, 19)),
        (3, rule, 21, (0, 12, 23, 0, 13), (0, 12, 23, 11, 13)),
        # the starts changed over; the second counted back from the operator; none; a high byte
        (3, rule, 9, (0, 12, 11, 3, 6), (0, 12, 11, 6, 3)),
        (3, rule, 9, (0, 12, 11, 3, 6), (0, 12, 11, 3, 3)),
        (3, rule, 9, (0, 12, 11, 3, 6), (0, 12, 11, 0, 0)),
        (3, rule, 21, (0, 12, 23, 0, 13), (0, 12, 23, 0, 13 + 256)),
        # of NO its kind, the next place, the start, the start of the record before, and a second start
        (3, turned, 13, (0, 13, 15, 0, 0), (0, 12, 15, 0, 0)),
        (3, turned, 13, (0, 13, 15, 0, 0), (0, 13, 13, 0, 0)),
        (3, turned, 13, (0, 13, 15, 0, 0), (0, 13, 15, 3, 0)),
        (3, turned, 13, (0, 13, 15, 0, 0), (0, 13, 15, 11, 0)),
        (3, turned, 13, (0, 13, 15, 0, 0), (0, 13, 15, 0, 11)),
        # of a leaf its payload, the next place, a start, its kind
        (3, rule, 6, (0, 4, 9, 0, 0), (0, 3, 9, 0, 0)),
        (3, rule, 6, (0, 4, 9, 0, 0), (0, 4, 8, 0, 0)),
        (3, rule, 6, (0, 4, 9, 0, 0), (0, 4, 9, 6, 0)),
        (3, rule, 6, (0, 4, 9, 0, 0), (0, 4, 9, 0, 3)),
        (3, postfix("CO1"), 0, (0, 1, 3, 0, 0), (0, 0, 3, 0, 0)),
        (3, postfix("CO1"), 0, (0, 1, 3, 0, 0), (0, 3, 3, 0, 0)),
        # the end for a record, a record for the end, a next place at the end
        (3, rule, 21, (0, 12, 23, 0, 13), (0, 255, 0, 0, 0)),
        (3, rule, 23, (0, 255, 0, 0, 0), (0, 12, 23, 0, 13)),
        (3, rule, 23, (0, 255, 0, 0, 0), (0, 255, 23, 0, 0)),
        (3, b"", 0, (0, 255, 0, 0, 0), (10, 0, 0, 0, 0)),
        (3, postfix("VA0 VA1"), 6, (0, 255, 0, 0, 0), (10, 6, 0, 0, 0)),
        # 8 for a good place; inside a record a record, another number, the place of its first byte, the end
        (3, rule, 9, (0, 12, 11, 3, 6), (8, 9, 0, 0, 0)),
        (3, rule, 10, (8, 10, 0, 0, 0), (0, 12, 11, 3, 6)),
        (3, rule, 10, (8, 10, 0, 0, 0), (6, 10, 0, 0, 0)),
        (3, rule, 10, (8, 10, 0, 0, 0), (8, 9, 0, 0, 0)),
        (3, rule, 10, (8, 10, 0, 0, 0), (0, 255, 0, 0, 0)),
        # the bytes inside AN OR are those of NO
        (3, postfix("VA0 VA1 VA2 AN OR"), 10, (8, 10, 0, 0, 0), (0, 13, 12, 3, 0)),
        # of a refusal the number and the place; a record in its stead; no number, so that the place reads as a record's code
        (3, lacking, 3, (8, 3, 0, 0, 0), (6, 3, 0, 0, 0)),
        (3, lacking, 3, (8, 3, 0, 0, 0), (8, 0, 0, 0, 0)),
        (3, lacking, 3, (8, 3, 0, 0, 0), (0, 10, 5, 0, 0)),
        (3, lacking, 3, (8, 3, 0, 0, 0), (0, 3, 0, 0, 0)),
        # after it the record, the place asked for, the end; and inside it the place asked for
        (3, lacking, 5, (8, 3, 0, 0, 0), (0, 3, 8, 0, 0)),
        (3, lacking, 11, (8, 3, 0, 0, 0), (0, 12, 13, 5, 8)),
        (3, lacking, 11, (8, 3, 0, 0, 0), (8, 11, 0, 0, 0)),
        (3, lacking, 13, (8, 3, 0, 0, 0), (0, 255, 0, 0, 0)),
        (3, lacking, LARGEST, (8, 3, 0, 0, 0), (0, 255, 0, 0, 0)),
        (3, lacking, 4, (8, 3, 0, 0, 0), (8, 4, 0, 0, 0)),
        (3, b"VA\0V", 4, (6, 3, 0, 0, 0), (0, 255, 0, 0, 0)),
        (3, b"VA\3", 1, (7, 0, 0, 0, 0), (8, 1, 0, 0, 0)),
        # before it the refusal
        (3, lacking, 0, (0, 2, 3, 0, 0), (8, 3, 0, 0, 0)),
        # the 385th record is given, and no 386th whatever it is
        (1, most, 769, (0, 13, 771, 0, 0), (9, 769, 0, 0, 0)),
        (1, most + b"NO", 771, (9, 771, 0, 0, 0), (0, 13, 773, 0, 0)),
        (1, most + b"NO", 773, (9, 771, 0, 0, 0), (0, 255, 0, 0, 0)),
        (1, most + b"AN", 771, (9, 771, 0, 0, 0), (8, 771, 0, 0, 0)),
        (1, most + b"XX", 771, (9, 771, 0, 0, 0), (6, 771, 0, 0, 0)),
        # more than six flags: a record, the end, another number
        (7, rule, 0, (1, 0, 0, 0, 0), (0, 2, 3, 0, 0)),
        (7, rule, 23, (1, 0, 0, 0, 0), (0, 255, 0, 0, 0)),
        (7, b"XX", 0, (1, 0, 0, 0, 0), (6, 0, 0, 0, 0)),
    ):
        # the right answers above are worked by hand
        assert read(n, data, place) == right != answered, (n, data, place)
        yield n, data, place, answered


def counts(asked):
    """What the readings are, in words."""
    kinds = Counter()
    for n, data, place in asked:
        number, code = read(n, data, place)[:2]
        if number == 8:
            kinds["by 8, too few operands" if records(n, data)[1] == (8, code) else "by 8, no first byte of a record"] += 1
        else:
            leaf = "record without operands"
            kinds[f"by {number}" if number else "end" if code == END else leaf if code < 10 else "NO" if code == 13 else "AN, OR or XO"] += 1
    expressions = len({(n, data) for n, data, _ in asked})
    refused = sum(count for kind, count in kinds.items() if kind.startswith("by"))
    return [f"readings {len(asked)}, expressions {expressions}, refusals {refused}"] + [f"{kind}: {kinds[kind]}" for kind in sorted(kinds)]


def main():
    if len(sys.argv) != 2:
        sys.exit("use: reading_cases.py FOLDER")
    # So that these expressions do not depend on what cases.bin takes from its own sequence.
    document_01.rng = RNG
    asked = list(dict.fromkeys(questions()))
    Path(sys.argv[1], "readings.bin").write_bytes(b"".join(item(n, data, place, read(n, data, place)) for n, data, place in asked))
    false = list(wrong())
    Path(sys.argv[1], "wrong_readings.bin").write_bytes(b"".join(item(*one) for one in false))
    print("\n".join(counts(asked) + [f"wrong readings {len(false)}"]))


if __name__ == "__main__":
    main()
