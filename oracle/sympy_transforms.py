#!/usr/bin/env python3
"""Records what sympy's anf_coeffs answers for tables of 1 to 16 flags, in sympy.bin of the folder named.

It rests on sympy (sympy.logic.boolalg) alone for the coefficients. The tables come from a fixed sequence of numbers.
The format is in the README beside the recorded file.
"""

import sys
from pathlib import Path

# How many samples of each flag count, from 1 to 16.
SAMPLES = [4, 8, 8, 8, 8, 8, 8, 6, 6, 4, 1, 1, 1, 1, 1, 1]


def numbers(seed):
    """SplitMix64 of Steele, Lea and Flood (2014): the same sequence each time."""
    mask = 2**64 - 1
    while True:
        seed = (seed + 0x9E3779B97F4A7C15) & mask
        z = seed
        z = (z ^ (z >> 30)) * 0xBF58476D1CE4E5B9 & mask
        z = (z ^ (z >> 27)) * 0x94D049BB133111EB & mask
        yield z ^ (z >> 31)


def table(n, kind, source):
    """The bits of one table: random, one in eight, seven in eight, or by the count of flags that are on."""
    settings = range(2**n)
    if kind == 0:
        return [next(source) >> 63 for _ in settings]
    if kind == 1:
        return [int(next(source) >> 61 == 0) for _ in settings]
    if kind == 2:
        return [int(next(source) >> 61 != 0) for _ in settings]
    counts = next(source)
    return [counts >> bin(s).count("1") & 1 for s in settings]


# The order of variables. In sympy's truth tables the first variable is the most significant bit of the index, and so it
# is in the index of a monomial. Here bit i of a setting, and of a monomial's mask, is flag i. So sympy's variables are
# taken as flag n-1 first and flag 0 last: then sympy's index of a row is the setting, its index of a monomial is the
# mask, and the two lists need no reordering. `mapping_holds` checks this by sympy's own bool_monomial.
def flags(n):
    from sympy import symbols

    return list(reversed(symbols(f"x0:{n}")))


def mapping_holds(n, bits, coefficients):
    from sympy.logic.boolalg import Xor, bool_monomial

    variables = flags(n)
    form = Xor(*[bool_monomial(m, variables) for m in range(2**n) if coefficients[m]])
    for s in range(2**n):
        setting = {v: bool(s >> int(v.name[1:]) & 1) for v in variables}
        if bool(form.subs(setting)) != bool(bits[s]):
            return False
    return True


def packed(bits):
    """Bit i mod 8 of byte i div 8 is bit i."""
    out = bytearray((len(bits) + 7) // 8)
    for i, bit in enumerate(bits):
        out[i // 8] |= bit << (i % 8)
    return bytes(out)


def main():
    try:
        from sympy.logic.boolalg import anf_coeffs
    except ImportError:
        sys.exit("sympy_transforms: python3 has no sympy; Debian's package python3-sympy has it")
    if len(sys.argv) != 2:
        sys.exit("use: sympy_transforms.py FOLDER")
    source = numbers(2)
    out = bytearray()
    for n, count in enumerate(SAMPLES, 1):
        for k in range(count):
            bits = table(n, k % 4, source)
            coefficients = [int(c) for c in anf_coeffs(bits)]
            if n <= 3 and not mapping_holds(n, bits, coefficients):
                sys.exit("sympy_transforms: this sympy orders variables in another way")
            out += bytes([n]) + packed(bits) + packed(coefficients)
    (Path(sys.argv[1]) / "sympy.bin").write_bytes(out)


main()
