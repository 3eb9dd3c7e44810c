#!/usr/bin/env python3
"""Makes crates/run_number_vectors/stdin and stdout: numbers, and what becomes of each, by exact fractions. Run from the repository's root."""
import random
from fractions import Fraction as F

INF = 0x7F800000
EPSILON = F(1, 2**23)


def f32(sign, x):
    """The bits of the f32 nearest to the fraction x >= 0, a tie to the even one, with a sign."""
    k = 0  # x is taken in units of 2^(k-149)
    while x * 2**149 / 2**k >= 2**24:
        k += 1
    units = x * 2**149 / 2**k
    q = units.numerator // units.denominator
    rest = units - q
    if rest > F(1, 2) or rest == F(1, 2) and q % 2:
        q += 1
    return sign << 31 | min((k << 23) + q, INF)


def value(bits):
    """Sign and size of a finite f32."""
    field, digits = bits >> 23 & 255, bits & (1 << 23) - 1
    size = F(digits, 2**149) if field == 0 else F((1 << 23) + digits) * F(2) ** (field - 150)
    return bits >> 31, size


def is_nan(bits):
    return bits & 0x7FFFFFFF > INF


def duplicate(a, b):
    if is_nan(a) or is_nan(b) or INF in (a & 0x7FFFFFFF, b & 0x7FFFFFFF):
        return False  # the difference is NaN or infinite
    x, y = (v if s == 0 else -v for s, v in (value(a), value(b)))
    return value(f32(0, abs(x - y)))[1] < EPSILON


def percent(sign, n):
    x = f32(sign, F(n))
    return x if x & 0x7FFFFFFF == INF else f32(sign, value(x)[1] / 100)


def told(bits, size):
    """A finite f32's bits, and the word `rounded` where it is not of that size; an infinity is not."""
    return f"{bits:08x}" + (" rounded" if bits & 0x7FFFFFFF == INF or value(bits)[1] != size else "")


tests, answers = [], []


def put(kind, sign, a, b, words, answer):
    line = f"{kind} {'-' if sign else '+'} {a:016x} {b:08x} {words}"
    assert len(line) < 64, line
    tests.append(line.ljust(63))
    answers.append(answer)


def decimal(sign, digits, places):
    x = f32(sign, F(digits, 10**places))
    put("D", sign, digits, places, f"{'-' if sign else ''}{digits}/10^{places}", f"{x:08x} {told(x, F(digits, 10**places))}")


for sign in (0, 1):
    # the numbers of scripts, the shelf tests and the ends of the range
    for digits, places in [(0, 0), (0, 9), (1, 0), (5, 1), (25, 2), (100, 0), (4, 1), (125, 2), (5, 2), (1, 1), (119, 9), (12, 8), (1, 9),
                           (9999999999, 0), (9999999999999999999, 9), (9999999999999999999, 0), (2**64 - 1, 0), (2**64 - 1, 9)]:
        decimal(sign, digits, places)
# ties, and the numbers right below and above them, some of which f64 takes for a tie
for places in range(10):
    for low in (2**24, 2**24 + 2, 2**25 - 2):  # twice the 24 binary digits: even, odd and all ones
        for off in (-1, 0, 1):
            decimal(0, (low + 1) * 5**places + off, places)
            decimal(1, (low + 1) * 5**places * 10 ** (9 - places) + off, 9)
for shift in range(1, 16):
    for off in (-1, 0, 1):
        decimal(1, ((2**24 + 1) << shift) + off, 0)
        decimal(0, ((2**24 + 3) << shift) * 10**6 + off, 6)
# every length of the digits, and any digits
for length in range(1, 65):
    decimal(length % 2, 2 ** (length - 1), length % 10)
    decimal(0, 2**length - 1, (length + 4) % 10)
pick = random.Random(4)
for _ in range(150):
    decimal(pick.randrange(2), pick.randrange(10 ** pick.randrange(1, 20)), pick.randrange(10))
for n in [0, 1, 2, 3, 33, 50, 66, 75, 99, 100, 101, 250, 12345, 16777200, 16777215, 16777216, 16777217, 16777219, 16777225, 33554432,
          1342177300, 1677721300, 1677721400, 1677721500, 1677721600, 3355443000, 4294967295, 2**64 - 1, 100 << 57]:
    for sign in (0, 1):
        put("%", sign, n, 0, f"{'-' if sign else ''}{n}%", told(percent(sign, n), F(n, 100)))
for bits in [0, 1, 0x7FFFFF, 0x800000, 0x3DCCCCCD, 0x3F800000, 0x7F7FFFFF, INF, 0x7F800001, 0x7FBFFFFF, 0x7FC00000, 0x7FC00001, 0x7FFFFFFF]:
    for x in (bits, bits | 1 << 31):
        put("B", 0, x, 0, "pattern", "nan" if is_nan(x) else f"{x:08x}")
for a, b in [(INF, INF), (INF, INF | 1 << 31), (INF | 1 << 31, INF | 1 << 31), (INF, 0), (0x7FC00000, 0x7FC00000), (0x7FC00000, 0), (0, 0), (0, 1 << 31),
             (0, 0x34000000), (0, 0x33FFFFFF), (0x80000000, 0xB3FFFFFF), (0x33FFFFFF, 0xB3FFFFFF), (f32(0, F(50, 100)), f32(0, F(1, 2))),
             (f32(0, F(1)), f32(0, F(1)) + 1), (f32(0, F(1)), f32(0, F(1)) - 1), (f32(0, F(1)) - 1, f32(0, F(1)) - 2), (f32(0, F(16777216)), f32(0, F(16777217))),
             (f32(0, F(16777216)), f32(0, F(16777218))), (f32(0, F(119, 10**9)), 0), (f32(0, F(12, 10**8)), 0), (0x7F7FFFFF, 0x7F7FFFFF), (0x7F7FFFFF, 0xFF7FFFFF)]:
    for x, y in ((a, b), (b, a)):
        put("=", 0, x, y, "duplicate", "duplicate" if duplicate(x, y) else "apart")
for n in [0, 1, 16777217, 4294967294, 4294967295, 4294967296, 9999999999, 2**64 - 1]:
    for sign in (0, 1):
        put("W", sign, n, 0, f"{'-' if sign else ''}{n}", "refused" if sign or n > 4294967295 else str(n))

for name, lines in (("stdin", tests), ("stdout", answers)):
    open(f"crates/run_number_vectors/{name}", "w").write("\n".join(lines) + "\n")
print(len(tests), "vectors")
