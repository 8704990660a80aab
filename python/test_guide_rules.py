"""The documents' examples through the Python module.

The expected values are the rows of document 01, "Marked examples of rules" and "Unmarked", or are worked by hand from the
documents' definitions where a comment says so; none comes from this library.
"""

import pickle
import unittest

import guide_rules
from guide_rules import Refusal, parse, show

# bits from setting 0, coefficient word, records, cost, raw cost
MARKED = [
    ("0", 0, "CO0", 1, 1),
    ("1", 1, "CO1", 1, 1),
    ("10", 3, "CO1 VA0 XO", 3, 3),
    ("0110", 6, "VA0 VA1 XO", 3, 3),
    ("0111", 14, "VA0 VA1 OR", 3, 7),
    ("0100", 10, "VA0 VA1 NO AN", 4, 5),
    ("00010000", 136, "VA0 VA1 VA2 NO AN AN", 6, 9),
    ("00010111", 104, "VA0 VA1 VA2 XO AN VA1 VA2 AN XO", 9, 11),
    ("01111111", 254, "VA0 VA1 OR VA2 OR", 4, 23),
    ("01111000", 30, "VA0 VA1 OR VA2 XO", 5, 9),
    ("10000000", 255, "CO1 VA0 VA1 OR VA2 OR XO", 6, 25),
]

# of table 01: the expression, the refusal's number and place
UNMARKED = [
    (parse("VA0 VA0 AN"), 13, 3),
    (parse("CO0"), 12, 1),
    (parse("VA0") + b"V", 6, 3),
    (parse("VA0 VA0"), 10, 6),
    (parse("AN"), 8, 0),
    (parse("VA1"), 7, 0),
    (parse("VA0" + " NO" * 384), 13, 385),
    (parse("VA0" + " NO" * 385), 9, 771),
]

TOO_LARGE = 1 << 64


class Rules(unittest.TestCase):
    def refused(self, number, place, call, *arguments):
        with self.assertRaises(Refusal) as caught:
            call(*arguments)
        self.assertEqual((caught.exception.number, caught.exception.place), (number, place))

    def test_marked_rules(self):
        for bits, word, text, cost, raw in MARKED:
            with self.subTest(bits=bits):
                flags = len(bits).bit_length() - 1
                table = [int(digit) for digit in bits]
                expression = parse(text)
                self.assertEqual(show(expression), text)
                for lent in (bits, table, tuple(table)):
                    self.assertEqual(guide_rules.transform(flags, lent), [word])
                    self.assertEqual(guide_rules.compile(flags, lent), (expression, len(text.split()), cost, raw))
                    self.assertEqual(guide_rules.examine(flags, lent, expression), cost)
                self.assertEqual(guide_rules.way_back(flags, [word]), table)
                self.assertEqual(guide_rules.raw_cost(flags, [word]), raw)
                self.assertEqual(guide_rules.cost(flags, expression)[:2], (cost, len(text.split())))
                self.assertEqual([guide_rules.evaluate(flags, expression, s) for s in range(len(bits))], table)
                found = [r.kind + ("" if r.payload is None else str(r.payload)) for r in guide_rules.records(flags, expression)]
                self.assertEqual(found, text.split())

    def test_unmarked(self):
        for expression, number, place in UNMARKED:
            with self.subTest(number=number, place=place):
                self.refused(number, place, guide_rules.examine, 1, "01", expression)
        self.assertEqual(guide_rules.transform(1, [2, 3]), guide_rules.transform(1, "01"))
        self.assertEqual(guide_rules.transform(16, [0] * (1 << 16)), [0] * 1024)
        self.refused(1, 0, guide_rules.transform, 17, [0] * (1 << 17))
        self.assertEqual(show(guide_rules.compile(6, "0" * 64).expression), "CO0")
        self.refused(1, 0, guide_rules.compile, 7, "0" * 128)

    def test_raw_cost(self):
        # By hand: the masks of n flags have n * 2^(n - 1) flags in all, so with every coefficient 1 the raw cost is twice that, plus 1.
        for flags in range(7):
            self.assertEqual(guide_rules.raw_cost(flags, [(1 << (1 << flags)) - 1]), flags * (1 << flags) + 1)
        # One term alone: 2k - 1 for k flags, 1 for the constant; and with the constant beside it 2 more.
        for mask in range(1, 64):
            self.assertEqual(guide_rules.raw_cost(6, [1 << mask]), 2 * bin(mask).count("1") - 1)
            self.assertEqual(guide_rules.raw_cost(6, [1 << mask | 1]), 2 * bin(mask).count("1") + 1)
        self.assertEqual(guide_rules.raw_cost(6, [1]), 1)
        self.assertEqual(guide_rules.raw_cost(6, [0]), 1)

    def test_listing(self):
        self.assertEqual(guide_rules.listing(3, [30]), (0, [1, 2, 4, 3]))
        # word 255 has every bit below 8
        self.assertEqual(guide_rules.listing(3, [255]), (1, [1, 2, 4, 3, 5, 6, 7]))
        self.assertEqual(guide_rules.listing(0, [1]), (1, []))
        # every coefficient of 16 flags, of which 0 is the constant
        self.assertEqual(len(guide_rules.listing(16, [TOO_LARGE - 1] * 1024).monomials), 65535)

    def test_reading(self):
        # worked by hand: VA0 is three bytes, NO two
        expression = parse("VA0 NO")
        self.assertEqual(guide_rules.read(1, expression, 0), guide_rules.Record("VA", 0, 3, ()))
        self.assertEqual(guide_rules.read(1, expression, 3), guide_rules.Record(kind="NO", payload=None, next=5, starts=(0,)))
        self.assertIsNone(guide_rules.read(1, expression, 5))
        self.assertIsNone(guide_rules.read(1, expression, TOO_LARGE - 1))
        self.assertEqual(guide_rules.records(1, b""), [])
        self.assertIsNone(guide_rules.read(1, b"", 0))
        self.refused(7, 0, guide_rules.records, 0, expression)
        # operands left over, below the ones that are taken and at the end, are no refusal
        self.assertEqual(
            guide_rules.records(3, parse("CO1 VA1 VA2 AN VA0")),
            [("CO", 1, 3, ()), ("VA", 1, 6, ()), ("VA", 2, 9, ()), ("AN", None, 11, (3, 6)), ("VA", 0, 14, ())],
        )

    # request 5 of document 02: "The bytes between the two starts are the first operand whole." The row 00010111 has records at
    # 0, 3, 6, 9, 11, 13, 16, 19 and 21.
    def test_operands(self):
        expression = parse("VA0 VA1 VA2 XO AN VA1 VA2 AN XO")
        for place, kind, starts, operands in (
            (9, "XO", (3, 6), ["VA1", "VA2"]),
            (11, "AN", (0, 3), ["VA0", "VA1 VA2 XO"]),
            (19, "AN", (13, 16), ["VA1", "VA2"]),
            (21, "XO", (0, 13), ["VA0 VA1 VA2 XO AN", "VA1 VA2 AN"]),
        ):
            record = guide_rules.read(3, expression, place)
            self.assertEqual(record, (kind, None, place + 2, starts))
            self.assertEqual([show(expression[a:b]) for a, b in zip(starts, starts[1:] + (place,))], operands)
        leaves = [record for record in guide_rules.records(3, expression) if not record.starts]
        self.assertEqual([record.payload for record in leaves], [0, 1, 2, 1, 2])
        # NO of a whole expression, behind an operand that it does not take
        self.assertEqual(guide_rules.read(3, parse("VA2 VA0 VA1 OR NO AN"), 11), ("NO", None, 13, (3,)))
        self.assertEqual(guide_rules.read(3, parse("VA2 VA0 VA1 OR NO AN"), 13), ("AN", None, 15, (0, 3)))
        # 193 flags and 192 XO: the first XO, at 579, takes the last two flags, the last one, at 961, the first flag and all the rest
        deep = parse("VA0 " * 193 + "XO " * 192)
        self.assertEqual(guide_rules.read(1, deep, 579), ("XO", None, 581, (573, 576)))
        self.assertEqual(guide_rules.read(1, deep, 961), ("XO", None, 963, (0, 3)))
        self.assertIsNone(guide_rules.read(1, deep, 963))

    # request 5: "the refusal of a record that begins before the place comes first. Number 8 also meets, and gives, a place below
    # the byte length that is not the first byte of a record; at or past the length is the end, unless an earlier record is refused."
    def test_refused_readings(self):
        # inside a record, also where the bytes inside are those of another: AN OR holds NO
        expression = parse("VA0 VA1 VA2 AN OR")
        for place in (1, 2, 4, 5, 7, 8, 10, 12):
            self.refused(8, place, guide_rules.read, 3, expression, place)
        # from the record that is refused on its refusal, before it records; and inside those the place
        for number, at, damaged in (
            (6, 3, parse("VA0") + b"V"),
            (6, 3, parse("VA0") + b"VB\0" + parse("VA0 AN")),
            (6, 3, parse("VA0") + b"\0" + parse("NO")),
            (7, 3, parse("VA0") + b"CO"),
            (7, 3, parse("VA0 VA3 AN")),
            (7, 3, parse("VA0 CO2 AN NO")),
            (8, 3, parse("VA0 AN")),
            (8, 3, parse("VA0 OR VA1 VA2 XO")),
            (8, 5, parse("VA0 NO XO")),
        ):
            with self.subTest(number=number, damaged=damaged):
                self.assertEqual(guide_rules.read(3, damaged, 0), ("VA", 0, 3, ()))
                self.refused(8, 1, guide_rules.read, 3, damaged, 1)
                for place in list(range(at, len(damaged) + 3)) + [TOO_LARGE - 1]:
                    self.refused(number, at, guide_rules.read, 3, damaged, place)
                self.refused(number, at, guide_rules.records, 3, damaged)
        for mark in ("AN", "OR", "XO", "NO"):
            for place in (0, 1, 2, 3):
                self.refused(8, 0, guide_rules.read, 3, parse(mark), place)
        # the 385th record begins at 769, a 386th at 771, whatever it is
        most = parse("VA0" + " NO" * 384)
        self.assertEqual(guide_rules.read(1, most, 769), ("NO", None, 771, (0,)))
        self.assertIsNone(guide_rules.read(1, most, 771))
        for more in (parse("NO"), b"V", b"XX", b"CO", parse("AN")):
            self.assertEqual(guide_rules.read(1, most + more, 769), ("NO", None, 771, (0,)))
            self.refused(8, 770, guide_rules.read, 1, most + more, 770)
            for place in (771, 772, 773, TOO_LARGE - 1):
                self.refused(9, 771, guide_rules.read, 1, most + more, place)
        # more than six flags come first
        for place in (0, 1, 2, 3):
            self.refused(1, 0, guide_rules.read, 7, b"XX", place)
        with self.assertRaises(Refusal) as caught:
            guide_rules.read(3, expression, 10)
        self.assertEqual(
            str(caught.exception),
            "refused by 8: too few operands, or (read) a place that is not the first byte of a record; "
            "place 10, the record's first byte, or the place asked for",
        )

    def test_stars(self):
        # worked by hand: flag 0 is set for the stars 2 and 3, flag 1 for the stars 1, 3 and 63
        words, all_stars = [12, 10 + (1 << 63)], TOO_LARGE - 1
        for text, values in (
            ("CO0", 0),
            ("CO1", all_stars),
            ("VA0", 12),
            ("VA1", 10 + (1 << 63)),
            ("VA0 VA1 AN", 8),
            ("VA0 VA1 OR", 14 + (1 << 63)),
            ("VA0 VA1 XO", 6 + (1 << 63)),
            ("VA0 NO", all_stars - 12),
        ):
            for lent in (words, tuple(words), words + [all_stars]):
                self.assertEqual(guide_rules.evaluate_stars(2, lent, parse(text)), values)
        self.assertEqual(guide_rules.evaluate_stars(0, [], parse("CO1")), all_stars)
        # the stars' settings in turn: a rule's word is then its table, setting s at bit s
        settings = [sum((s >> i & 1) << s for s in range(8)) for i in range(3)]
        for bits, _, text, _, _ in MARKED:
            if len(bits) == 8:
                table = sum(int(digit) << s for s, digit in enumerate(bits))
                self.assertEqual(guide_rules.evaluate_stars(3, settings, parse(text)) & 255, table)
        # star_words turns settings into words
        self.assertEqual(guide_rules.star_words(2, [0, 2, 1, 3]), [12, 10])
        self.assertEqual(guide_rules.star_words(2, [0] * 63 + [2]), [0, 1 << 63])
        self.assertEqual(guide_rules.star_words(0, [0]), [])
        for flags, bad in ((2, [4]), (1, [0] * 65), (7, [0]), (1, [-1])):
            with self.assertRaises(ValueError):
                guide_rules.star_words(flags, bad)
        # 14 comes after 1 and before the records
        self.refused(1, 0, guide_rules.evaluate_stars, 7, [], b"")
        self.refused(14, 0, guide_rules.evaluate_stars, 2, [12], b"?")
        self.refused(14, 0, guide_rules.evaluate_stars, 1, [], parse("CO1"))
        self.refused(6, 0, guide_rules.evaluate_stars, 1, [12], b"?")
        self.refused(7, 3, guide_rules.evaluate_stars, 1, words, parse("VA0 VA1 AN"))
        self.refused(10, 6, guide_rules.evaluate_stars, 2, words, parse("VA0 VA1"))
        with self.assertRaises(Refusal) as caught:
            guide_rules.evaluate_stars(2, [12], b"")
        self.assertEqual(str(caught.exception), "refused by 14: fewer words of stars than flags")

    # request 4 of document 02: "the mark `RU`, one byte of flag count, two bytes of expression length (low byte first), eight
    # table bytes (low first, bit s for setting s), then the expression"
    def test_packages(self):
        expression = parse("VA0 VA1 OR")
        packed = b"RU\x02\x08\x00\x0e" + bytes(7) + expression
        for table in ("0111", [0, 1, 1, 1], 0b1110):
            self.assertEqual(guide_rules.write_rule(2, table, expression), packed)
        marked = [(len(bits).bit_length() - 1, int(bits[::-1], 2), parse(text)) for bits, _, text, _, _ in MARKED]
        package = guide_rules.package(marked)
        self.assertEqual(len(package), sum(13 + len(rule[2]) for rule in marked))
        rules = guide_rules.rules(package)
        self.assertEqual([tuple(rule[:3]) for rule in rules], marked)
        self.assertEqual(guide_rules.package(rules), package)
        # a table as elsewhere: entries past 2^flags are ignored, and fewer are refused by 2, after more than six flags by 1
        self.assertEqual(guide_rules.write_rule(1, "01" + "1" * 70, parse("VA0")), guide_rules.write_rule(1, 2, parse("VA0")))
        self.refused(2, 0, guide_rules.write_rule, 2, "010", parse("VA0"))
        self.refused(2, 0, guide_rules.write_rule, 0, "", parse("CO0"))
        self.refused(1, 0, guide_rules.write_rule, 7, "0" * 128, parse("CO0"))
        self.refused(1, 0, guide_rules.write_rule, 7, "", parse("CO0"))
        self.assertEqual(guide_rules.read_rule(packed, 0), (2, 14, expression, 13, 21))
        self.assertEqual(guide_rules.read_rule(bytearray(b"?" + packed), 1), (2, 14, expression, 14, 22))
        for place in (21, 22, TOO_LARGE - 1):
            self.assertIsNone(guide_rules.read_rule(packed, place))
        self.assertEqual((guide_rules.package([]), guide_rules.rules(b"")), (b"", []))
        self.assertEqual(len(guide_rules.rules((packed * 3121)[:65520])), 3120)

    def test_package_refusals(self):
        packed = guide_rules.write_rule(2, "0111", parse("VA0 VA1 OR"))
        for number, place, damaged in (
            (15, 21, packed + b"R"),
            (15, 0, b"UR" + packed[2:]),
            (16, 21, packed + packed[:12]),
            (16, 0, packed[:-1]),
            (16, 0, packed[:2] + b"\x07" + packed[3:-1]),
            (1, 21, packed + packed[:2] + b"\x07" + packed[3:]),
            (17, 0, packed[:5] + b"\x1e" + packed[6:]),
            (17, 0, packed[:12] + b"\x80" + packed[13:]),
            (12, 0, packed[:5] + b"\x0f" + packed[6:]),
            (7, 21 + 13 + 3, packed + packed[:-3] + b"\x02OR"),
            (10, 21 + 13 + 6, packed + b"RU\x02\x06" + packed[4:-2]),
            (13, 5, b"RU\x01\x0d\0\x02" + bytes(7) + parse("VA0 VA0 AN VA0 AN")),
            (16, 0, bytes(65537)),
            (15, 0, bytes(65536)),
        ):
            with self.subTest(number=number, place=place):
                self.refused(number, place, guide_rules.rules, damaged)
        self.refused(16, 0, guide_rules.read_rule, bytes(65537), 65537)
        self.refused(1, 0, guide_rules.write_rule, 7, TOO_LARGE - 1, b"")
        self.refused(17, 0, guide_rules.write_rule, 5, 1 << 32, b"")
        self.refused(10, 0, guide_rules.write_rule, 6, 1 << 63, b"")
        self.refused(12, 3, guide_rules.write_rule, 2, "0110", parse("VA0 VA1 OR"))
        with self.assertRaisesRegex(Refusal, "^refused by 17: a bit of the table word stands at 2\\^flags or above$"):
            guide_rules.write_rule(0, 2, b"")
        with self.assertRaisesRegex(Refusal, "^refused by 1: .*; place 21, the rule's first byte$"):
            guide_rules.rules(packed + packed[:2] + b"\x07" + packed[3:])
        with self.assertRaises(ValueError):
            guide_rules.package([(2, "0111", parse("VA0 VA1 OR"))] * 3121)

    def test_costs_and_cheaper(self):
        # worked by hand: an OR is discounted for its first operand alone
        left, right = parse("VA0 VA1 OR VA2 OR"), parse("VA0 VA1 VA2 OR OR")
        self.assertEqual(guide_rules.cost(3, left), guide_rules.Costs(cost=4, size=5, depth=3))
        self.assertEqual(guide_rules.cost(3, right), guide_rules.Costs(cost=5, size=5, depth=3))
        # the second only if its (size, depth) is smaller
        self.assertIs(guide_rules.cheaper(3, left, right), left)
        self.assertIs(guide_rules.cheaper(3, right, left), right)
        leaf = parse("VA2")
        self.assertIs(guide_rules.cheaper(3, left, leaf), leaf)
        # the same size, depth 4 and 3
        deep, flat = parse("VA0 VA1 VA2 VA3 AN AN AN"), parse("VA0 VA1 AN VA2 VA3 AN AN")
        self.assertIs(guide_rules.cheaper(4, deep, flat), flat)
        self.assertIs(guide_rules.cheaper(4, flat, deep), flat)
        self.assertIsNone(guide_rules.cheaper(2, left, parse("VA0")))
        self.assertIsNone(guide_rules.cheaper(3, left, b""))
        self.assertIsNone(guide_rules.cheaper(7, left, right))

    def test_refusals_by_place_of_check(self):
        leaf = parse("VA0")
        for flags in (17, 64, TOO_LARGE - 1):
            for call in (guide_rules.transform, guide_rules.way_back, guide_rules.listing):
                self.refused(1, 0, call, flags, [])
        for flags in (7, 64, TOO_LARGE - 1):
            self.refused(1, 0, guide_rules.raw_cost, flags, [])
            self.refused(1, 0, guide_rules.compile, flags, "")
            self.refused(1, 0, guide_rules.read, flags, b"", 0)
            self.refused(1, 0, guide_rules.records, flags, b"")
            self.refused(1, 0, guide_rules.evaluate, flags, b"", TOO_LARGE - 1)
            self.refused(1, 0, guide_rules.cost, flags, b"")
            self.refused(1, 0, guide_rules.examine, flags, [], b"")
        self.refused(2, 0, guide_rules.transform, 2, "011")
        self.refused(2, 0, guide_rules.compile, 0, [])
        self.refused(2, 0, guide_rules.examine, 1, "0", b"")
        for call in (guide_rules.way_back, guide_rules.listing, guide_rules.raw_cost):
            self.refused(3, 0, call, 0, [])
            self.refused(4, 0, call, 1, [4])
        self.refused(3, 0, guide_rules.listing, 7, [0])
        self.refused(11, 0, guide_rules.evaluate, 1, b"", 2)
        self.refused(10, 0, guide_rules.evaluate, 1, b"", 1)
        self.refused(7, 0, guide_rules.cost, 0, leaf)
        # what is past the needed entries and words is ignored
        self.assertEqual(guide_rules.transform(1, "0111"), [2])
        self.assertEqual(guide_rules.way_back(1, [2, 5]), [0, 1])

    def test_refusal_as_exception(self):
        with self.assertRaises(Refusal) as caught:
            guide_rules.examine(1, "01", parse("CO0"))
        refusal = caught.exception
        self.assertEqual((refusal.number, refusal.place, refusal.words), (12, 1, "differs from the table"))
        self.assertEqual(str(refusal), "refused by 12: differs from the table; place 1, the smallest such setting")
        self.assertNotIsInstance(refusal, ValueError)
        self.assertEqual(str(pickle.loads(pickle.dumps(refusal))), str(refusal))

    def test_numbers_that_do_not_fit(self):
        for bad in (-1, TOO_LARGE):
            for call, arguments in (
                (guide_rules.transform, (bad, "0")),
                (guide_rules.transform, (0, [bad])),
                (guide_rules.way_back, (0, [bad])),
                (guide_rules.listing, (bad, [0])),
                (guide_rules.raw_cost, (0, [0, bad])),
                (guide_rules.compile, (1, [0, bad])),
                (guide_rules.read, (0, b"", bad)),
                (guide_rules.evaluate, (0, b"CO\0", bad)),
                (guide_rules.evaluate_stars, (bad, [], b"CO\0")),
                (guide_rules.evaluate_stars, (0, [bad], b"CO\0")),
                (guide_rules.cost, (bad, b"CO\0")),
                (guide_rules.cheaper, (bad, b"CO\0", b"CO\0")),
                (guide_rules.examine, (0, [bad], b"CO\0")),
            ):
                with self.assertRaises(ValueError):
                    call(*arguments)

    def test_other_types(self):
        for table in ("01 ", "2", "0\n", "\u0661"):
            with self.assertRaises(ValueError):
                guide_rules.compile(0, table)
        for call, arguments in (
            (guide_rules.compile, (0, [0.0])),
            (guide_rules.compile, (0, ["0"])),
            (guide_rules.compile, (0, 0)),
            (guide_rules.compile, ("0", "0")),
            (guide_rules.way_back, (0, "1")),
            (guide_rules.evaluate_stars, (0, "1", b"CO\0")),
            (guide_rules.star_words, (1, "01")),
            (guide_rules.star_words, (1, [0.0])),
            (guide_rules.evaluate_stars, (0, b"1", b"CO\0")),
            (guide_rules.write_rule, (0, 0.0, b"CO\0")),
            (guide_rules.rules, ("RU",)),
            (guide_rules.cost, (0, "CO0")),
            (guide_rules.cost, (0, 5)),
            (guide_rules.cost, (0, None)),
            (guide_rules.evaluate, (0, b"CO\0", 0.0)),
        ):
            with self.assertRaises(TypeError):
                call(*arguments)
        for expression in (bytearray(b"CO\1"), memoryview(b"CO\1"), memoryview(b"C-O-\1-")[::2]):
            self.assertEqual(guide_rules.evaluate(0, expression, 0), 1)

    def test_notation(self):
        self.assertEqual(parse("VA0 VA1 OR"), b"VA\0VA\1OR")
        self.assertEqual(show(b"VA\0VA\1OR"), "VA0 VA1 OR")
        self.assertEqual(parse(""), b"")
        self.assertEqual(show(b""), "")
        self.assertEqual(show(parse("VA255 CO7")), "VA255 CO7")
        for text in ("VA", "VA256", "VA01", "OR1", "XX", "va0", "VA0VA1", "VA-1", "VA\u0661"):
            with self.assertRaises(ValueError):
                parse(text)
        for damaged in (b"V", b"VA", b"CO", b"XX", b"VA\0V", b"\xff\xff"):
            with self.assertRaises(ValueError):
                show(damaged)


if __name__ == "__main__":
    unittest.main()
