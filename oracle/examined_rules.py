#!/usr/bin/env python3
"""Writes what the examining command is run on, in data/ of the folder named, a file for each input and their names in order, and what must be
written for them, in stdout beside it. It rests on document 01, for the rows that refuse and for the costs, and on the words of
crates/examination_text/specs (Verdict, Input, Notation); each answer was worked out by hand from these.
"""

from printed_rules import MARKED, main

# ---- rules: a name, the table's digits, the rule's records, and what the examiner says

# Document 01, "Unmarked, table 01": the row and the place. The table has one monomial, of one flag, so its raw cost is 1.
UNMARKED = [
    ("unmarked_and", "01", "VA0 VA0 AN", "refused by row 13: cost 3 is above the raw cost 1"),
    ("unmarked_constant", "01", "CO0", "refused by row 12: differs from the table at setting 1, flags set: 0"),
    ("unmarked_two", "01", "VA0 VA0", "refused by row 10: no record, or more than one operand left at the end"),
    ("unmarked_operator", "01", "AN", "refused by row 8: too few operands, at record 1"),
    ("unmarked_flag_1", "01", "VA1", "refused by row 7: payload missing or out of range, at record 1"),
    ("unmarked_384_NO", "01", "VA0" + " NO" * 384, "refused by row 13: cost 385 is above the raw cost 1"),
    ("unmarked_385_NO", "01", "VA0" + " NO" * 385, "refused by row 9: more than 385 records, at record 386"),
]


def all_monomials():
    """The raw form of the six flags' constant 1 and all 63 monomials: "constant 1 first, then monomials in list order", each product taking "flags
    upwards, nested to the left"; "a balanced fold splits t terms into t div 2 and the rest, each half folded the same way and joined by XO"."""
    masks = sorted(range(1, 64), key=lambda mask: (bin(mask).count("1"), mask))
    products = [[f"VA{i}" for i in range(6) if mask >> i & 1] for mask in masks]
    terms = ["CO1"] + [" AN ".join([" ".join(flags[:2]), *flags[2:]]) + " AN" * (len(flags) > 1) for flags in products]

    def fold(terms):
        half = len(terms) // 2
        return terms[0] if len(terms) == 1 else f"{fold(terms[:half])} {fold(terms[half:])} XO"

    return fold(terms)


# "accepts exactly if no row refuses, giving the cost": at most the raw cost, so a raw form too; an OR is "1 less" for its first operand alone.
ACCEPTED = [
    ("accepted_at_raw_cost", "0100", "VA0 VA0 VA1 AN XO", "accepted, cost 5"),
    ("accepted_raw_form", "0111", "VA0 VA1 VA0 VA1 AN XO XO", "accepted, cost 7"),
    ("accepted_parity", "01101001", "VA0 VA1 XO VA2 XO", "accepted, cost 5"),
    ("accepted_negations", "0111", "VA0 NO NO VA1 OR", "accepted, cost 5"),
    ("accepted_second_OR", "01111111", "VA0 VA1 VA2 OR OR", "accepted, cost 5"),
    ("accepted_64_digits", "0" + "1" * 63, "VA0 VA1 OR VA2 OR VA3 OR VA4 OR VA5 OR", "accepted, cost 7"),
    ("accepted_last_operands", "0" + "1" * 63, "VA0 VA1 VA2 VA3 VA4 VA5 OR OR OR OR OR", "accepted, cost 11"),
    ("accepted_constant", "1" * 64, "CO1", "accepted, cost 1"),
    ("accepted_385_records", "1" + "0" * 63, all_monomials(), "accepted, cost 385"),
]

MARK = "refused by row 6: unknown mark, at record "
PAYLOAD = "refused by row 7: payload missing or out of range, at record "
OPERANDS = "refused by row 8: too few operands, at record "
RECORDS = "refused by row 9: more than 385 records, at record 386"
END = "refused by row 10: no record, or more than one operand left at the end"
SETTING = "refused by row 12: differs from the table at setting "

# A digit is one more byte of its record: after an operator it begins a record that has no mark, and it lies in the record that was written.
REFUSED = [
    ("row_6_first", "01", "VB0", MARK + "1"),
    ("row_6_second", "01", "VA0 VB0 AN", MARK + "2"),
    ("row_6_fourth", "01", "VA0 NO NO AX", MARK + "4"),
    ("row_6_before_8", "01", "ZZ AN", MARK + "1"),
    ("row_6_digit_at_end", "01", "VA0 NO1", MARK + "2"),
    ("row_6_digit_between", "01", "VA0 VA0 AN0 NO", MARK + "3"),
    ("row_7_constant_2", "01", "CO2", PAYLOAD + "1"),
    ("row_7_constant_9", "01", "VA0 CO9 AN", PAYLOAD + "2"),
    ("row_7_no_flag", "0", "VA0", PAYLOAD + "1"),
    ("row_7_flag_2", "0111", "VA0 VA1 OR VA2 OR", PAYLOAD + "4"),
    ("row_7_flag_6", "0" * 64, "VA6", PAYLOAD + "1"),
    ("row_7_absent", "01", "VA", PAYLOAD + "1"),
    ("row_7_absent_at_end", "01", "VA0 NO NO CO", PAYLOAD + "4"),
    ("row_7_absent_between", "01", "VA NO", PAYLOAD + "1"),
    ("row_8_NO", "01", "NO", OPERANDS + "1"),
    ("row_8_AN", "01", "VA0 AN", OPERANDS + "2"),
    ("row_8_OR", "01", "VA0 NO OR", OPERANDS + "3"),
    ("row_8_XO", "01", "VA0 VA0 AN XO VA0", OPERANDS + "4"),
    ("row_8_before_6", "01", "AN ZZ", OPERANDS + "1"),
    ("row_9_before_6", "01", "VA0" + " NO" * 384 + " ZZ", RECORDS),
    ("row_9_before_10", "01", "VA0" + " VA0" * 385, RECORDS),
    ("row_10_no_record", "01", "", END),
    ("row_10_three", "0111", "VA0 VA1 VA0", END),
    ("row_10_385_records", "01", "VA0" + " VA0" * 384, END),
    ("row_12_one_digit", "0", "CO1", SETTING + "0, flags set: none"),
    ("row_12_setting_0", "10", "CO0", SETTING + "0, flags set: none"),
    ("row_12_setting_1", "0010", "VA0", SETTING + "1, flags set: 0"),
    ("row_12_setting_3", "01101001", "VA0 VA1 OR VA2 XO", SETTING + "3, flags set: 0 1"),
    ("row_12_setting_5", "01010001", "VA0", SETTING + "5, flags set: 0 2"),
    ("row_12_setting_10", "0" * 10 + "1" + "0" * 5, "CO0", SETTING + "10, flags set: 1 3"),
    ("row_12_setting_32", "0" * 32 + "1" + "0" * 31, "CO0", SETTING + "32, flags set: 5"),
    ("row_12_setting_63", "0" * 63 + "1", "CO0", SETTING + "63, flags set: 0 1 2 3 4 5"),
    ("row_12_everywhere", "01" * 32, "VA0 NO", SETTING + "0, flags set: none"),
    ("row_12_before_13", "01", "VA0 VA0 XO", SETTING + "1, flags set: 0"),
    ("row_13_one_above", "0100", "VA0 VA1 NO AN NO NO", "refused by row 13: cost 6 is above the raw cost 5"),
    ("row_13_constant", "1", "CO0 NO", "refused by row 13: cost 2 is above the raw cost 1"),
    ("row_13_two_terms", "0110", "VA0 NO NO VA1 XO", "refused by row 13: cost 5 is above the raw cost 3"),
    ("row_13_first_OR", "01", "VA0 VA0 OR VA0 OR", "refused by row 13: cost 4 is above the raw cost 1"),
    ("row_13_second_OR", "01", "VA0 VA0 VA0 OR OR", "refused by row 13: cost 5 is above the raw cost 1"),
]

# ---- other input: what it is not, and the bytes

NOT_TABLE = {
    "no_digit": b"\nVA0\n",
    "empty_lines": b"\n\n",
    "3_digits": b"011\nVA0\n",
    "5_digits": b"01110\nVA0\n",
    "63_digits": b"0" * 63 + b"\nCO0\n",
    "65_digits": b"0" * 65 + b"\nCO0\n",
    "128_digits": b"0" * 128 + b"\nCO0\n",
    "digit_2": b"0121\nVA0\n",
    "letter": b"01O1\nVA0\n",
    "slash": b"0/11\nVA0\n",
    "high_bit": b"0\xb111\nVA0\n",
    "nul": b"01\x001\nVA0\n",
    "space_before": b" 111\nVA0\n",
    "space_after": b"011 \nVA0\n",
    "space_more": b"0111 \nVA0 VA1 OR\n",
    "carriage_return": b"0111\r\nVA0 VA1 OR\n",
    "carriage_return_for_digit": b"011\r\nVA0\n",
    "lines_swapped": b"VA0\n01\n",
    "neither_line": b"011\nva0\n",
}

# "VA0 and a byte V" of document 01 is no rule in the notation.
NOT_RULE = {
    "one_letter": b"01\nVA0 V\n",
    "letter_and_digit": b"01\nV0\n",
    "digit_first": b"01\n0VA\n",
    "two_digits": b"01\nVA00\n",
    "small_letters": b"01\nva0\n",
    "before_A": b"01\n@A0\n",
    "after_Z": b"01\nV[0\n",
    "before_0": b"01\nVA/\n",
    "after_9": b"01\nVA:\n",
    "payload_byte": b"01\nVA\x00\n",
    "record_high_bit": b"01\n\xd6A0\n",
    "comma": b"01\nVA0,NO\n",
    "tab": b"01\nVA0\tNO\n",
    "two_spaces": b"01\nVA0  NO\n",
    "space_alone": b"01\n \n",
    "record_space_before": b"01\n VA0\n",
    "record_space_after": b"01\nVA0 \n",
    "record_carriage_return": b"01\nVA0\r\n",
    "4095_bytes_last_record": b"01\nVA0" + b" NO" * 1362 + b" N\n",
}

NOT_LINES = {
    "empty": b"",
    "newline_only": b"\n",
    "no_newline": b"01",
    "one_line": b"01\n",
    "one_line_of_both": b"01 VA0\n",
    "no_newline_at_end": b"01\nVA0",
    "nul_for_newline": b"01\nVA0\x00",
    "byte_after": b"01\nVA0\nV",
    "newline_after": b"01\nVA0\n\n",
    "third_line": b"01\nVA0\nVA0\n",
    "newline_before": b"\n01\nVA0\n",
    "newline_between": b"01\n\nVA0\n",
    "newlines": b"\n\n\n",
    "4095_bytes_no_newline": b"0" * 4095,
    "4095_bytes_no_newline_at_end": b"01\nVA0" + b" NO" * 1363,
}

# Two lines of 4,095 bytes, and their verdict: they have 1,363 records.
LONGEST = b"0111\nVA0" + b" NO" * 1362 + b"\n"

# 4,096 bytes and more, which may begin with two lines that are good.
TOO_LONG = {
    "4096_bytes": b"01\nVA0" + b" NO" * 1363 + b"\n",
    "4096_bytes_newline_after": LONGEST + b"\n",
    "4096_bytes_no_newline": b"0" * 4096,
    "4097_bytes": b"01\nVA0 VA0" + b" NO" * 1362 + b"\n",
    "4595_bytes": LONGEST + b"0" * 500,
    "8192_bytes": LONGEST + b"\n" + LONGEST + b"\n",
    "10000_bytes": b"01\nVA0\n" + b"0" * 9993,
}


def inputs():
    """Each input with its name and what must be written."""
    marked = [("marked_" + bits, bits, records, f"accepted, cost {cost}") for bits, records, cost, _ in MARKED]
    for title, digits, records, verdict in marked + ACCEPTED + UNMARKED + REFUSED:
        yield title, f"{digits}\n{records}\n".encode(), verdict + "\n"
    yield "4095_bytes", LONGEST, RECORDS + "\n"
    for other, answer in [
        (NOT_TABLE, "line 1 must be 1, 2, 4, 8, 16, 32 or 64 digits 0 or 1\n"),
        (NOT_RULE, "line 2 must be records such as VA0 VA1 OR, one space between two\n"),
        (NOT_LINES, "the input must be two lines: a table's digits, and a rule's records\n"),
        (TOO_LONG, "the input is longer than 4095 bytes\n"),
    ]:
        for title, lines in other.items():
            yield title, lines, answer


if __name__ == "__main__":
    main(inputs)
