#!/usr/bin/env python3
"""Writes src/circle_table.rs: document 01, section 3's ring sines and cosines.

Each is the f32 nearest the Taylor sum, over fractions, through the 41st power
(sine) or the 40th (cosine), at the f32 angle. With --check it only compares.
"""

import struct
import sys
from fractions import Fraction
from pathlib import Path

TABLE = Path(__file__).parent / "src" / "circle_table.rs"


def value(bits):
    """The fraction that the f32 of these bits stands for."""
    sign = -1 if bits >> 31 else 1
    exponent, fraction = bits >> 23 & 255, bits & 0x7FFFFF
    assert exponent != 255
    if exponent == 0:
        return sign * Fraction(fraction, 2**149)
    return sign * Fraction(fraction + 2**23) * Fraction(2) ** (exponent - 150)


def nearest(x):
    """The bits of the f32 nearest x, ties to even, +0.0 for 0."""
    if x == 0:
        return 0
    sign, x = (1 << 31, -x) if x < 0 else (0, x)
    low, high = 0, 0x7F7FFFFF  # positive f32 are ordered as their bits
    while low < high:
        middle = (low + high + 1) // 2
        low, high = (middle, high) if value(middle) <= x else (low, middle - 1)
    below, above = x - value(low), value(low + 1) - x
    up = above < below or (above == below and low % 2 == 1)
    return sign | (low + 1 if up else low)


def taylor(x, power, last):
    """The sum of x^power/power! with alternating signs, by twos through last."""
    term, total = Fraction(1), Fraction(0)
    for k in range(1, power + 1):
        term = term * x / k
    while power <= last:
        total += term
        term = -term * x * x / ((power + 1) * (power + 2))
        power += 2
    return total


def angle(k):
    tau = value(0x40C90FDB)
    return value(nearest(value(nearest(k * tau)) / 16))


def row(x):
    return tuple(nearest(v) for v in (x, taylor(x, 1, 41), taylor(x, 0, 40)))


def rust():
    half = value(nearest(angle(1) / 2))
    rings = [row(angle(k)) for k in range(16)]
    sides = [row(value(nearest(angle(k) + half))) for k in range(16)]
    lines = ["//! Written by tables.py: the bits of an angle, of its sine and of its cosine.", ""]
    for name, rows in (("RING", rings), ("SIDES", sides)):
        lines.append(f"pub const {name}: [[u32; 3]; 16] = [")
        lines += ["    [" + ", ".join(f"0x{bits:08X}" for bits in r) + "]," for r in rows]
        lines += ["];", ""]
    return "\n".join(lines[:-1]) + "\n"


def main():
    assert all(nearest(value(b)) == b for b in (0, 1, 0x800000, 0x40C90FDB))
    assert struct.unpack("<f", struct.pack("<I", 0x40C90FDB))[0] == float(value(0x40C90FDB))
    if sys.argv[1:] == ["--check"]:
        sys.exit(0 if TABLE.read_text() == rust() else "circle_table.rs differs")
    TABLE.write_text(rust())


main()
