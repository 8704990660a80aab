#!/usr/bin/env python3
"""Records worked examples from print, in printed.bin of the folder named. It rests on the formulas quoted here alone.

The table of each comes from evaluating the printed formula at every setting, and the coefficients from the list of its
monomials, as printed or as expanded by hand in the comment above it: nothing here transforms a table.
"""

import sys
from pathlib import Path

ONE = ()  # the constant, as the product of no flags

# Each example: how many flags, the printed formula over the list of flags, and the monomials as tuples of flags.
FORMULAS = [
    # x or y = x + y + xy (I. I. Zhegalkin, 1927).
    (2, lambda x: x[0] | x[1], [(0,), (1,), (0, 1)]),
    # not x = 1 + x (the same).
    (1, lambda x: 1 - x[0], [ONE, (0,)]),
    # FIPS 180-4, 4.1.1. Ch(x, y, z) = (x and y) xor (not x and z). As not x = 1 + x: xy + (1 + x)z = xy + z + xz.
    (3, lambda x: (x[0] & x[1]) ^ ((1 - x[0]) & x[2]), [(0, 1), (2,), (0, 2)]),
    # FIPS 180-4, 4.1.1. Maj(x, y, z) = (x and y) xor (x and z) xor (y and z): its monomials as printed.
    (3, lambda x: (x[0] & x[1]) ^ (x[0] & x[2]) ^ (x[1] & x[2]), [(0, 1), (0, 2), (1, 2)]),
    # FIPS 180-4, 4.1.1. Parity(x, y, z) = x xor y xor z: its monomials as printed.
    (3, lambda x: x[0] ^ x[1] ^ x[2], [(0,), (1,), (2,)]),
    # RFC 1321, 3.4. F(X, Y, Z) = XY v not(X) Z. Both sides of the v are never 1 together, so v is xor there:
    # xy + (1 + x)z = xy + z + xz.
    (3, lambda x: (x[0] & x[1]) | ((1 - x[0]) & x[2]), [(0, 1), (2,), (0, 2)]),
    # RFC 1321, 3.4. G(X, Y, Z) = XZ v Y not(Z). Likewise: xz + y(1 + z) = xz + y + yz.
    (3, lambda x: (x[0] & x[2]) | (x[1] & (1 - x[2])), [(0, 2), (1,), (1, 2)]),
    # RFC 1321, 3.4. I(X, Y, Z) = Y xor (X v not(Z)). As x v w = x + w + xw, with w = 1 + z:
    # y + x + (1 + z) + x(1 + z) = 1 + y + z + xz, since x + x = 0.
    (3, lambda x: x[1] ^ (x[0] | (1 - x[2])), [ONE, (1,), (2,), (0, 2)]),
    # Grain v1, filter function (M. Hell, T. Johansson, W. Meier, 2005): h(x) = x1 + x4 + x0x3 + x2x3 + x3x4 + x0x1x2
    # + x0x2x3 + x0x2x4 + x1x2x4 + x2x3x4: its monomials as printed.
    (
        5,
        lambda x: x[1] ^ x[4] ^ (x[0] & x[3]) ^ (x[2] & x[3]) ^ (x[3] & x[4]) ^ (x[0] & x[1] & x[2])
        ^ (x[0] & x[2] & x[3]) ^ (x[0] & x[2] & x[4]) ^ (x[1] & x[2] & x[4]) ^ (x[2] & x[3] & x[4]),
        [(1,), (4,), (0, 3), (2, 3), (3, 4), (0, 1, 2), (0, 2, 3), (0, 2, 4), (1, 2, 4), (2, 3, 4)],
    ),
]

# FIPS 202, 3.2.4, the step chi on one row of five bits: A'[x] = A[x] xor ((A[x+1] xor 1) A[x+2]), indices mod 5.
# a + (b + 1)c = a + c + bc.
for i in range(5):
    j, k = (i + 1) % 5, (i + 2) % 5
    FORMULAS.append((5, lambda x, i=i, j=j, k=k: x[i] ^ ((x[j] ^ 1) & x[k]), [(i,), (k,), (j, k)]))

# The marked examples of document 01: the bits of the table from setting 0, and the coefficient word.
ROWS = [
    ("0", 0),
    ("1", 1),
    ("10", 3),
    ("0110", 6),
    ("0111", 14),
    ("0100", 10),
    ("00010000", 136),
    ("00010111", 104),
    ("01111111", 254),
    ("01111000", 30),
    ("10000000", 255),
]


def packed(bits):
    """Bit i mod 8 of byte i div 8 is bit i."""
    out = bytearray((len(bits) + 7) // 8)
    for i, bit in enumerate(bits):
        out[i // 8] |= bit << (i % 8)
    return bytes(out)


def sample(n, bits, coefficients):
    return bytes([n]) + packed(bits) + packed(coefficients)


def main():
    if len(sys.argv) != 2:
        sys.exit("use: printed_transforms.py FOLDER")
    out = b""
    for n, formula, monomials in FORMULAS:
        bits = [formula([s >> i & 1 for i in range(n)]) for s in range(2**n)]
        masks = [sum(1 << i for i in monomial) for monomial in monomials]
        out += sample(n, bits, [int(m in masks) for m in range(2**n)])
    for text, word in ROWS:
        bits = [int(digit) for digit in text]
        out += sample(len(bits).bit_length() - 1, bits, [word >> m & 1 for m in range(len(bits))])
    (Path(sys.argv[1]) / "printed.bin").write_bytes(out)


main()
