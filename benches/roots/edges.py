#!/usr/bin/env python3
"""Prints crates/float/specs/Edges.antt: the root and the logarithm at the edges, by exact fractions.

Each step of the logarithm is worked out as a fraction and rounded once; the root is picked by its square.
Nothing here calls the proved code or the machine's floating point beyond reading a double's bits.
"""
import struct
from fractions import Fraction
from math import isqrt

EDGES = """0000000000000000 8000000000000000 0000000000000001 000FFFFFFFFFFFFF 0010000000000000 3FEFFFFFFFFFFFFF
3FF0000000000000 3FF0000000000001 3FF7FFFFFFFFFFFF 3FF8000000000000 4000000000000000 400FFFFFFFFFFFFF 401921FB54442D18
7FEFFFFFFFFFFFFF 7FF0000000000000 7FF8000000000000 8000000000000001 BFF0000000000000 FFF0000000000000""".split()
NAN, TOP, BOTTOM = 0x7FF8000000000000, 0x7FF0000000000000, 0xFFF0000000000000
HI, LO = 0x3FE62E42FEE00000, 0x3DEA39EF35793C76


def value(b):
    """The fraction that a finite pattern stands for."""
    field, digits = b >> 52 & 2047, b & (1 << 52) - 1
    v = Fraction(digits, 1 << 1074) if field == 0 else Fraction((digits | 1 << 52) << field, 1 << 1075)
    return -v if b >> 63 else v


def bits(v):
    """The pattern of a fraction that is a double."""
    return struct.unpack("<Q", struct.pack("<d", v.numerator / v.denominator))[0]


def rounded(v):
    """The double nearest to a fraction, a tie to the even one."""
    if v == 0:
        return v
    a, e = abs(v), 0
    while a >= 1 << 53:
        a, e = a / 2, e + 1
    while a < 1 << 52 and e > -1074:
        a, e = a * 2, e - 1
    n, rest = divmod(a.numerator, a.denominator)
    n += 2 * rest > a.denominator or (2 * rest == a.denominator and n % 2)
    r = Fraction(n) * Fraction(2) ** e
    return -r if v < 0 else r


def sqrt(b):
    if b & TOP == TOP and b & (1 << 52) - 1 or (b >> 63 and b << 1 & (1 << 64) - 1):
        return NAN
    if b in (0, 1 << 63, TOP):
        return b
    x, e = value(b), 0
    while x < 1 << 104:
        x, e = x * 4, e - 1
    while x >= 1 << 106:
        x, e = x / 4, e + 1
    n = isqrt(x.numerator // x.denominator)
    n += 4 * x > (2 * n + 1) ** 2
    return bits(Fraction(n) * Fraction(2) ** e)


def ln(b):
    if b & TOP == TOP and b & (1 << 52) - 1 or (b >> 63 and b << 1 & (1 << 64) - 1):
        return NAN
    if b in (0, 1 << 63):
        return BOTTOM
    if b == TOP:
        return b
    s, k = value(b), 0
    while s < 1:
        s, k = s * 2, k - 1
    while s >= 2:
        s, k = s / 2, k + 1
    if s >= Fraction(3, 2):
        s, k = s / 2, k + 1
    u = rounded(rounded(s - 1) / rounded(s + 1))
    w = rounded(u * u)
    q = rounded(Fraction(1, 23))
    for i in range(10, -1, -1):
        q = rounded(rounded(q * w) + rounded(Fraction(1, 2 * i + 1)))
    low = rounded(rounded(k * value(LO)) + rounded(rounded(u + u) * q))
    return bits(rounded(rounded(k * value(HI)) + low))


rows = [int(e, 16) for e in EDGES]
print("-- The definition's root and logarithm at the edges: benches/roots/edges.py made the rows, by exact fractions. antt computes them all at once. Assumes nothing.")
print("""use Rattle.std.specs.Prelude.{Bool, true, ◌&&◌, List, [], ◌∷◌, ℕ, T, eqb}
use Rattle.std.specs.Float.{binary64}
use Rattle.std.specs.Float.Ieee.{size, units, odd, of_bits, to_bits, add, sub, mul, div, lt, round, of_int}
use Rattle.definition.specs.Root.{cut_root, isqrt, smallests_in, root_of, sqrt_in, sqrt_of}
use Rattle.definition.specs.Log.{coefficient, series, log_of, reduced, log_count, ln_of}

-- the bit patterns of a value, of its root and of its logarithm
pub record Row : Type 0 where
  pub x : ℕ
  pub root : ℕ
  pub log : ℕ

pub row : ℕ → ℕ → ℕ → Row
row x root log = record { x = x; root = root; log = log }

pub holds : Row → Bool
holds r = eqb (to_bits binary64 (sqrt_of (of_bits binary64 r.x))) r.root && eqb (to_bits binary64 (ln_of (of_bits binary64 r.x))) r.log

pub all : List Row → Bool
all [] = true
all (r ∷ rs) = holds r && all rs

pub edges : List Row
edges =""")
for b in rows:
    print(f"    row 0x{b:016X} 0x{sqrt(b):016X} 0x{ln(b):016X} ∷")
print("""    []

pub at_the_edges : T (all edges)
unfolding all edges row holds sqrt_in root_of isqrt cut_root smallests_in units odd size of_bits to_bits ln_of log_count reduced log_of series coefficient add sub mul div lt round of_int
at_the_edges = tt""")
