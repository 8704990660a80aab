#!/usr/bin/env python3
"""Writes what the printing program is run on, in data/ of the folder named, a file for each input and their names in order, and what must be
written for them, in stdout beside it. It rests on document 01 alone: the paragraph on the printing program and the table of marked examples.
"""

import sys
from pathlib import Path

# Document 01, "Marked examples of rules": bits from setting 0, records, cost, raw cost.
MARKED = [
    ("0", "CO0", 1, 1),
    ("1", "CO1", 1, 1),
    ("10", "CO1 VA0 XO", 3, 3),
    ("0110", "VA0 VA1 XO", 3, 3),
    ("0111", "VA0 VA1 OR", 3, 7),
    ("0100", "VA0 VA1 NO AN", 4, 5),
    ("00010000", "VA0 VA1 VA2 NO AN AN", 6, 9),
    ("00010111", "VA0 VA1 VA2 XO AN VA1 VA2 AN XO", 9, 11),
    ("01111111", "VA0 VA1 OR VA2 OR", 4, 23),
    ("01111000", "VA0 VA1 OR VA2 XO", 5, 9),
    ("10000000", "CO1 VA0 VA1 OR VA2 OR XO", 6, 25),
]

# "No monomials: CO with the constant.": the constant tables, which have a line of every length.
CONSTANT = [(bit * digits, "CO" + bit, 1, 1) for digits in (2, 4, 8, 16, 32, 64) for bit in "01"]

# "a line of 1, 2, 4, .. 64 digits 0 or 1 and a newline"; "Other input, and any byte after the first newline, prints only `bad line`".
BAD = {
    "empty": b"",
    "newline_only": b"\n",
    "no_newline": b"0111",
    "no_newline_64_digits": b"01" * 32,
    "3_digits": b"011\n",
    "5_digits": b"01110\n",
    "63_digits": b"0" * 63 + b"\n",
    "65_digits": b"0" * 65 + b"\n",
    "66_digits": b"0" * 66 + b"\n",
    "128_digits": b"01" * 64 + b"\n",
    "digit_2": b"0121\n",
    "letter": b"01O1\n",
    "sign": b"+111\n",
    "slash": b"0/11\n",
    "high_bit": b"0\xb111\n",
    "nul": b"01\x001\n",
    "nul_for_newline": b"0111\x00",
    "space_before": b" 111\n",
    "space_between": b"01 1\n",
    "space_after": b"011 \n",
    "space_more": b"0111 \n",
    "tab": b"011\t\n",
    "carriage_return": b"0111\r\n",
    "carriage_return_for_digit": b"011\r\n",
    "newline_before": b"\n0111\n",
    "newline_between": b"01\n1\n",
    "byte_after": b"0111\n0",
    "newline_after": b"0111\n\n",
    "two_lines": b"0111\n0110\n",
    "byte_after_64_digits": b"0" * 64 + b"\n0",
    "much_after": b"0111\n" + b"0111\n" * 2000,
}


def text(bits, records, cost, raw):
    """"Line one is n; line two the records ..; line three the two costs.\""""
    return f"flags {len(bits).bit_length() - 1}\n{records}\ncost {cost} raw {raw}\n"


def name(bits):
    return "rule_" + bits if len(bits) <= 8 else f"all_{bits[0]}_{len(bits)}_digits"


def inputs():
    """Each input with its name and what must be written."""
    for row in MARKED + CONSTANT:
        yield name(row[0]), row[0].encode() + b"\n", text(*row)
    for title, line in BAD.items():
        yield title, line, "bad line\n"


def main(inputs):
    """Writes the files of a program's inputs, for the script that is run."""
    if len(sys.argv) != 2:
        sys.exit(f"use: {Path(sys.argv[0]).name} FOLDER")
    folder = Path(sys.argv[1])
    (folder / "data").mkdir(parents=True, exist_ok=True)
    for title, line, _ in inputs():
        (folder / "data" / title).write_bytes(line)
    (folder / "data" / "names").write_text("".join(f"{title}\n" for title, _, _ in inputs()))
    (folder / "stdout").write_text("".join(f"{title}\n{answer}" for title, _, answer in inputs()))


if __name__ == "__main__":
    main(inputs)
