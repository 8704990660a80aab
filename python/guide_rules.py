"""Guide-star rules from Python: every call of include/guide_rules.h.

    import guide_rules
    rule = guide_rules.compile(3, "00010111")
    guide_rules.show(rule.expression)                        # 'VA0 VA1 VA2 XO AN VA1 VA2 AN XO'
    guide_rules.examine(3, "00010111", rule.expression)      # 9, its cost
    guide_rules.read(3, rule.expression, 11)                 # AN, the record at byte 11; its operands start at 0 and 3
    guide_rules.evaluate(3, rule.expression, 0b101)          # 1: flags 0 and 2 are set
    stars = guide_rules.star_words(3, [0b000, 0b101, 0b110, 0b011])
    bin(guide_rules.evaluate_stars(3, stars, rule.expression))          # '0b1110': stars 1, 2 and 3

    package = guide_rules.package([(3, "00010111", rule.expression)])
    guide_rules.rules(package)[0].expression == rule.expression         # True

A table is a string of digits 0 and 1, digit i for setting i, or a sequence of ints, of which bit 0 counts. Coefficients are a
sequence of 64-bit words, an expression is bytes or anything bytes-like. Stars are a sequence of 64-bit words, one for each
flag, in which bit j is star j's; star_words makes them from a setting for each star. A package is bytes; a rule's table is
one int there, in which bit s is setting s's. What a call refuses it raises as Refusal;
a number that does not fit 64 bits is a ValueError.

The shared object is the file that the environment variable GUIDE_RULES_LIBRARY names, and otherwise
build/libguide_rules.so, which `make python` builds. It is loaded by the first call.
"""

import collections.abc
import ctypes
import functools
import operator
import os
import re
from pathlib import Path
from typing import Iterable, List, NamedTuple, Optional, Sequence, Tuple, TypeVar, Union

__all__ = [
    "FLAG_LIMIT", "FORM_FLAG_LIMIT", "RECORD_LIMIT", "BYTE_LIMIT", "STARS", "PACKAGE_LIMIT",
    "Refusal", "Listing", "Compilation", "Record", "Costs", "Rule",
    "transform", "way_back", "listing", "raw_cost", "compile", "read", "records", "evaluate", "evaluate_stars",
    "cost", "cheaper", "examine", "star_words", "show", "parse", "write_rule", "read_rule", "rules", "package",
]

FLAG_LIMIT = 6  # flags, of the other calls
FORM_FLAG_LIMIT = 16  # flags, of transform, way_back and listing
RECORD_LIMIT = 385  # records of a well-formed expression
BYTE_LIMIT = 963  # bytes of a compiled expression
STARS = 64  # stars of a word
PACKAGE_LIMIT = 65536  # bytes of a package
_RULE_LIMIT = 13 + BYTE_LIMIT  # bytes of a rule of a package

Table = Union[str, Sequence[int]]
Expression = Union[bytes, bytearray, memoryview]
AnyExpression = TypeVar("AnyExpression", bound=Expression)

# the refusals of documents 01 and 02: the condition, and what the place is; None where it is 0, or the first byte of a package's rule
_ROWS = {
    1: ("more than 16 flags (transform, way back, listing) or more than 6 (all others)", None),
    2: ("the table has fewer than 2^flags entries", None),
    3: ("fewer words of coefficients than needed", None),
    4: ("a coefficient is 1 at 2^flags or above in the needed words", None),
    5: ("the output is shorter than the result", "the length needed"),
    6: ("one byte left, or an unknown mark", "the record's first byte"),
    7: ("the payload is absent, a constant above 1, or a flag index that is not below flags", "the record's first byte"),
    8: ("too few operands, or (read) a place that is not the first byte of a record", "the record's first byte, or the place asked for"),
    9: ("a 386th record begins", "its first byte"),
    10: ("no bytes, or more than one operand left at the end", "the byte after the expression"),
    11: ("the setting is 2^flags or more", None),
    12: ("differs from the table", "the smallest such setting"),
    13: ("the cost is above the raw cost", "the cost"),
    14: ("fewer words of stars than flags", None),
    15: ("the mark RU of a rule is wrong or cut", "the rule's first byte"),
    16: ("a rule's header or expression runs past the end, or the package is over 65,536 bytes", "the rule's first byte; 0 for the package"),
    17: ("a bit of the table word stands at 2^flags or above", None),
}


class Refusal(Exception):
    """A call refused: by which number, at which place, and the row's words."""

    def __init__(self, number: int, place: int) -> None:
        super().__init__(number, place)
        self.number = number
        self.place = place
        self.words = _ROWS[number][0]

    def __str__(self) -> str:
        meaning = _ROWS[self.number][1] or ("the rule's first byte" if self.place else None)
        return f"refused by {self.number}: {self.words}" + (f"; place {self.place}, {meaning}" if meaning else "")


class Listing(NamedTuple):
    """The constant, 0 or 1, and the monomials as masks, by count of ones, then by mask."""

    constant: int
    monomials: List[int]


class Compilation(NamedTuple):
    """The expression that the compiler writes, its count of records, its cost, and the raw cost."""

    expression: bytes
    records: int
    cost: int
    raw_cost: int


class Record(NamedTuple):
    """A record: its kind, which is its mark; its payload, None where there is none; the place after it; and the first byte of each operand.

    AN, OR and XO have two starts, NO has one, CO and VA have none.
    """

    kind: str
    payload: Optional[int]
    next: int
    starts: Tuple[int, ...]


class Costs(NamedTuple):
    """An expression's cost, size and depth."""

    cost: int
    size: int
    depth: int


class Rule(NamedTuple):
    """A rule of a package: its flag count, its table as an int in which bit s is setting s's, its expression, where that starts, and the next place."""

    flags: int
    table: int
    expression: bytes
    start: int
    next: int


_MARKS = ("", "CO", "VA", "AN", "OR", "XO", "NO")
_OPERANDS = {"CO": 0, "VA": 0, "AN": 2, "OR": 2, "XO": 2, "NO": 1}
_WITH_PAYLOAD = ("CO", "VA")
_ANSWERS = 6

_number = ctypes.c_uint64
_numbers = ctypes.POINTER(ctypes.c_uint64)
_masks = ctypes.POINTER(ctypes.c_uint32)
_writable = ctypes.POINTER(ctypes.c_uint8)
_bytes = ctypes.c_char_p
_answer = (_numbers, _number)

_ARGUMENTS = {
    "rule_transform": (_number, _numbers, _number, _numbers, _number, *_answer),
    "rule_way_back": (_number, _numbers, _number, _numbers, _number, *_answer),
    "rule_listing": (_number, _numbers, _number, _masks, _number, *_answer),
    "rule_raw_cost": (_number, _numbers, _number, *_answer),
    "rule_compile": (_number, _numbers, _number, _writable, _number, *_answer),
    "rule_read": (_number, _bytes, _number, _number, *_answer),
    "rule_evaluate": (_number, _bytes, _number, _number, *_answer),
    "rule_evaluate_stars": (_number, _numbers, _number, _bytes, _number, *_answer),
    "rule_cost": (_number, _bytes, _number, *_answer),
    "rule_cheaper": (_number, _bytes, _number, _bytes, _number),
    "rule_examine": (_number, _numbers, _number, _bytes, _number, *_answer),
    "package_write": (_number, _number, _bytes, _number, _writable, _number, *_answer),
    "package_read": (_bytes, _number, _number, *_answer),
}


@functools.lru_cache(maxsize=None)
def _library() -> ctypes.CDLL:
    named = os.environ.get("GUIDE_RULES_LIBRARY")
    path = named or str(Path(__file__).resolve().parent.parent / "build" / "libguide_rules.so")
    try:
        library = ctypes.CDLL(path)
        for name, arguments in _ARGUMENTS.items():
            call = getattr(library, name)
            call.argtypes = arguments
            call.restype = ctypes.c_uint64
    except (OSError, AttributeError) as error:
        whose = "the library that GUIDE_RULES_LIBRARY names" if named else "the library of guide_rules"
        raise OSError(f"{whose} cannot be loaded ({error}); `make python` builds build/libguide_rules.so") from error
    return library


def _fitting(value: int, name: str) -> int:
    number = operator.index(value)
    if not 0 <= number < 1 << 64:
        raise ValueError(f"{name} does not fit 64 bits" + (f": {number}" if number.bit_length() <= 128 else ""))
    return number


def _entries(values: Sequence[int], name: str) -> List[int]:
    if isinstance(values, (bytes, bytearray, memoryview, collections.abc.Set, collections.abc.Mapping)):
        raise TypeError(f"no sequence of ints: {type(values).__name__}")
    return [_fitting(value, f"{name} {i}") for i, value in enumerate(values)]


def _table(table: Table) -> List[int]:
    if not isinstance(table, str):
        return _entries(table, "table entry")
    for i, digit in enumerate(table):
        if digit not in "01":
            raise ValueError(f"digit {i} of the table is neither 0 nor 1: {digit!r}")
    return [int(digit) for digit in table]


def _words(words: Sequence[int], name: str = "coefficient word") -> List[int]:
    if isinstance(words, str):
        raise TypeError("no sequence of ints: str")
    return _entries(words, name)


def _lent(kind, count: int, values: Sequence[int] = ()):
    # An entry more where there is none: the pointer is never null.
    return (kind * max(count, 1))(*values)


def _of(expression: Expression, name: str = "an expression") -> bytes:
    if isinstance(expression, str):
        raise TypeError(f"{name} is bytes, not a string; parse makes an expression from 'VA0 VA1 OR'")
    return expression if type(expression) is bytes else memoryview(expression).tobytes()


def _settings(flags: int, limit: int) -> int:
    # How many settings there are; 0 where the call refuses the flag count.
    return 1 << flags if flags <= limit else 0


def _call(name: str, *arguments) -> List[int]:
    answer = (ctypes.c_uint64 * _ANSWERS)()
    number = getattr(_library(), name)(*arguments, answer, _ANSWERS)
    if number:
        raise Refusal(number, answer[0])
    return list(answer)


def _numbers_of(values: List[int]):
    return _lent(ctypes.c_uint64, len(values), values), len(values)


def transform(flags: int, table: Table) -> List[int]:
    """The table's coefficients, in words: coefficient m is bit m % 64 of word m // 64. Up to 16 flags."""
    flags, entries = _fitting(flags, "flags"), _table(table)
    room = (_settings(flags, FORM_FLAG_LIMIT) + 63) // 64
    out = _lent(ctypes.c_uint64, room)
    written = _call("rule_transform", flags, *_numbers_of(entries), out, room)[0]
    return out[:written]


def way_back(flags: int, coefficients: Sequence[int]) -> List[int]:
    """The table, 0 or 1 for each setting, that has these coefficients. Up to 16 flags."""
    flags, words = _fitting(flags, "flags"), _words(coefficients)
    room = _settings(flags, FORM_FLAG_LIMIT)
    out = _lent(ctypes.c_uint64, room)
    written = _call("rule_way_back", flags, *_numbers_of(words), out, room)[0]
    return out[:written]


def listing(flags: int, coefficients: Sequence[int]) -> Listing:
    """The constant and the monomials of the coefficients. Up to 16 flags."""
    flags, words = _fitting(flags, "flags"), _words(coefficients)
    room = max(_settings(flags, FORM_FLAG_LIMIT) - 1, 0)
    out = _lent(ctypes.c_uint32, room)
    constant, count = _call("rule_listing", flags, *_numbers_of(words), out, room)[:2]
    return Listing(constant, out[:count])


def raw_cost(flags: int, coefficients: Sequence[int]) -> int:
    """The cost of the coefficients' raw form."""
    return _call("rule_raw_cost", _fitting(flags, "flags"), *_numbers_of(_words(coefficients)))[0]


def compile(flags: int, table: Table) -> Compilation:
    """The table's expression, with its count of records, its cost and the raw cost."""
    flags, entries = _fitting(flags, "flags"), _table(table)
    out = _lent(ctypes.c_uint8, BYTE_LIMIT)
    written, *counts = _call("rule_compile", flags, *_numbers_of(entries), out, BYTE_LIMIT)[:4]
    return Compilation(ctypes.string_at(out, written), *counts)


def _read(flags: int, data: bytes, place: int) -> Optional[Record]:
    kind, payload, following, *starts = _call("rule_read", flags, data, len(data), place)[:5]
    if kind == 0:
        return None
    mark = _MARKS[kind]
    return Record(mark, payload if mark in _WITH_PAYLOAD else None, following, tuple(starts[:_OPERANDS[mark]]))


def read(flags: int, expression: Expression, place: int) -> Optional[Record]:
    """The record that starts at a place, with the starts of its operands, or None at the end, which is any place from the length on.

    The bytes from one start up to the next, and from the last up to the place, are an operand whole: of AN, OR and XO with starts a and b
    the operands are expression[a:b] and expression[b:place], of NO with start a it is expression[a:place].
    The records are read from byte 0 up to the one at the place, so the time grows with the place. A record that is refused on the way is
    this call's Refusal, at the end too; a place inside a record is refused by 8, with that place.
    """
    return _read(_fitting(flags, "flags"), _of(expression), _fitting(place, "place"))


def records(flags: int, expression: Expression) -> List[Record]:
    """All records in turn, by read; that no bytes are there, or that operands are left over, is no Refusal.

    The first begins at 0, and each other at the `next` of the one before.
    As read goes from byte 0 each time, the time grows with the square of the number of records; a 386th is refused.
    """
    flags, data = _fitting(flags, "flags"), _of(expression)
    found: List[Record] = []
    record = _read(flags, data, 0)
    while record is not None:
        found.append(record)
        record = _read(flags, data, record.next)
    return found


def evaluate(flags: int, expression: Expression, setting: int) -> int:
    """The expression's value, 0 or 1, at a setting, whose bit i is flag i."""
    data = _of(expression)
    return _call("rule_evaluate", _fitting(flags, "flags"), data, len(data), _fitting(setting, "setting"))[0]


def evaluate_stars(flags: int, stars: Sequence[int], expression: Expression) -> int:
    """The expression's values for 64 stars as one word, bit j for star j; bit j of word i of the stars is flag i of star j.

    There are always 64: where fewer are sent, the bits past them are the values at setting 0.
    """
    words, data = _words(stars, "word of stars"), _of(expression)
    return _call("rule_evaluate_stars", _fitting(flags, "flags"), *_numbers_of(words), data, len(data))[0]


def cost(flags: int, expression: Expression) -> Costs:
    """The expression's cost, size and depth."""
    data = _of(expression)
    return Costs(*_call("rule_cost", _fitting(flags, "flags"), data, len(data))[:3])


def cheaper(flags: int, first: AnyExpression, second: AnyExpression) -> Optional[AnyExpression]:
    """The second, as it was handed in, if its (size, depth) is smaller, else the first; None if flags or either is refused."""
    one, two = _of(first), _of(second)
    which = _library().rule_cheaper(_fitting(flags, "flags"), one, len(one), two, len(two))
    return (None, first, second)[which]


def examine(flags: int, table: Table, expression: Expression) -> int:
    """The cost of an expression that has the table's bit at every setting and costs no more than the raw form; else a Refusal."""
    entries, data = _table(table), _of(expression)
    return _call("rule_examine", _fitting(flags, "flags"), *_numbers_of(entries), data, len(data))[0]


def star_words(flags: int, settings: Sequence[int]) -> List[int]:
    """The words of up to 64 stars, one for each flag, from a setting for each star.

    A ValueError for more than 64 stars, more than 6 flags, or a setting of 2^flags or more.
    """
    flags, stars = _fitting(flags, "flags"), _words(settings, "setting of star")
    if flags > FLAG_LIMIT or len(stars) > STARS:
        raise ValueError(f"more than {FLAG_LIMIT} flags" if flags > FLAG_LIMIT else f"more than {STARS} stars: {len(stars)}")
    for j, setting in enumerate(stars):
        if setting >= 1 << flags:
            raise ValueError(f"the setting of star {j} is 2^flags or more: {setting}")
    return [sum((setting >> i & 1) << j for j, setting in enumerate(stars)) for i in range(flags)]


def _table_word(flags: int, table: Union[int, Table]) -> int:
    if isinstance(table, int):
        return _fitting(table, "table word")
    entries = _table(table)
    settings = _settings(flags, FLAG_LIMIT)
    if len(entries) < settings:
        raise Refusal(2, 0)
    return sum((entry & 1) << setting for setting, entry in enumerate(entries[:settings]))


def write_rule(flags: int, table: Union[int, Table], expression: Expression) -> bytes:
    """The bytes of one rule of a package (package_write in C); a Refusal where the examiner would refuse the expression.

    The table is an int, in which bit s is setting s's, or a table as elsewhere.
    """
    flags, data, out = _fitting(flags, "flags"), _of(expression), _lent(ctypes.c_uint8, _RULE_LIMIT)
    written = _call("package_write", flags, _table_word(flags, table), data, len(data), out, _RULE_LIMIT)[0]
    return ctypes.string_at(out, written)


def _read_rule(data: bytes, place: int) -> Optional[Rule]:
    kind, flags, table, start, length, following = _call("package_read", data, len(data), place)
    return Rule(flags, table, data[start:start + length], start, following) if kind else None


def read_rule(package: Expression, place: int) -> Optional[Rule]:
    """The rule that starts at a place of a package (package_read in C), or None at the end.

    It is one that the examiner accepts against its own table. A record of an expression is given by read.
    """
    return _read_rule(_of(package, "a package"), _fitting(place, "place"))


def rules(package: Expression) -> List[Rule]:
    """All rules of a package in turn. A rule that is refused raises; read_rule, from next to next, gives those before it."""
    data = _of(package, "a package")
    found: List[Rule] = []
    rule = _read_rule(data, 0)
    while rule is not None:
        found.append(rule)
        rule = _read_rule(data, rule.next)
    return found


def package(rules: Iterable[Union[Rule, Tuple[int, Union[int, Table], Expression]]]) -> bytes:
    """The package of these rules, each a flag count, a table and an expression, or a Rule that was read.

    A ValueError where it would be over 65,536 bytes.
    """
    data = b"".join(write_rule(*tuple(rule)[:3]) for rule in rules)
    if len(data) > PACKAGE_LIMIT:
        raise ValueError(f"a package has at most {PACKAGE_LIMIT} bytes: {len(data)}")
    return data


def show(expression: Expression) -> str:
    """The records in document 01's notation, as 'VA0 VA1 OR'; a ValueError where the bytes are no records.

    A payload may be any byte, and neither operands nor records are counted, so that what the library refuses can be shown.
    """
    data, texts, place = _of(expression), [], 0
    while place < len(data):
        mark = data[place:place + 2].decode("latin-1")
        payload = data[place + 2:place + 3] if mark in _WITH_PAYLOAD else b""
        if mark not in _MARKS[1:] or (mark in _WITH_PAYLOAD and not payload):
            raise ValueError(f"no whole record at byte {place}")
        texts.append(mark + (str(payload[0]) if payload else ""))
        place += 2 + len(payload)
    return " ".join(texts)


def parse(text: str) -> bytes:
    """The bytes of records in document 01's notation, as 'VA0 VA1 OR'; a ValueError where the text is none. It undoes show."""
    if not isinstance(text, str):
        raise TypeError(f"no text: {type(text).__name__}")
    found = []
    for word in text.split():
        match = re.fullmatch("(CO|VA)(0|[1-9][0-9]{0,2})|AN|OR|XO|NO", word)
        if match is None or int(match[2] or 0) > 255:
            raise ValueError(f"no record: {word!r}")
        found.append(match[1].encode() + bytes([int(match[2])]) if match[1] else word.encode())
    return b"".join(found)
