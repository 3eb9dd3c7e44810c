#!/usr/bin/env python3
"""02 (l)'s quarter-wave table: 1,025 whole numbers, entry i the nearest to 32,767 times the sine of i/1,024 of a quarter turn. Run it from
the repository's root.

  wave_table.py make      write crates/wave/src/table.rt and crates/drawing/specs/Table.antt, from a sine of 50 digits
  wave_table.py compare   compare the entries of both files with a double-precision sine; say how near one comes to a tie
"""
import math
import re
import sys
from decimal import Decimal, getcontext

PEAK = 32767
LAST = 1024
CODE = "crates/wave/src/table.rt"
DEFINITION = "crates/drawing/specs/Table.antt"
WIDTH, CODE_WIDTH = 140, 99

CODE_HEAD = """\
// 02 (l): the quarter-wave table: entry i is the nearest to 32,767 times the sine of i/1,024 of a quarter turn. tools/wave_table.py makes
// this file and specs/Table.antt.
pub const QUARTER: [u16; 1025] = [
"""

DEFINITION_HEAD = """\
-- 02 (l): the quarter-wave table, "1,025 whole numbers from 0 to 32,767". tools/wave_table.py makes this file and src/table.rt, and
-- compares them with a sine; proofs/TableLaws has its two rules.
use Rattle.std.specs.Prelude.{ℕ, List, [], ◌∷◌}

unfoldable pub table : List ℕ
table =
"""

getcontext().prec = 50


def arctangent_of_inverse(n):
    """The arctangent of 1/n, by its series."""
    total, power, k = Decimal(0), Decimal(1) / n, 0
    while abs(power) > Decimal(10) ** -49:
        total += power / (2 * k + 1)
        power, k = -power / (n * n), k + 1
    return total


def sine(x):
    """The sine of x, by its series."""
    total, term, k = Decimal(0), x, 1
    while abs(term) > Decimal(10) ** -49:
        total += term
        term = -term * x * x / ((k + 1) * (k + 2))
        k += 2
    return total


def heights():
    quarter_turn = 8 * arctangent_of_inverse(5) - 2 * arctangent_of_inverse(239)
    return [PEAK * sine(quarter_turn * i / LAST) for i in range(LAST + 1)]


def nearest(height):
    return int((height + Decimal("0.5")).to_integral_value(rounding="ROUND_FLOOR"))


def laid(words, width):
    """Words in full lines."""
    lines = [""]
    for word in words:
        if len(lines[-1]) + 1 + len(word) > width - 4:
            lines.append("")
        lines[-1] += f" {word}" if lines[-1] else word
    return "".join(f"    {line}\n" for line in lines)


def make():
    entries = [nearest(height) for height in heights()]
    with open(CODE, "w", newline="\n") as file:
        file.write(CODE_HEAD + laid([f"{entry}," for entry in entries], CODE_WIDTH) + "];\n")
    with open(DEFINITION, "w", newline="\n") as file:
        file.write(DEFINITION_HEAD + laid([*(f"{entry} ∷" for entry in entries), "[]"], WIDTH))


def entries_of_code():
    return [int(row) for row in re.findall(r"(\d+),", open(CODE).read().split("= [\n")[1])]


def entries_of_definition():
    return [int(word) for word in re.findall(r"(\d+) ∷", open(DEFINITION).read().split("table =\n")[1])]


def compare():
    doubles = [math.floor(PEAK * math.sin(math.pi / 2 * i / LAST) + 0.5) for i in range(LAST + 1)]
    for path, entries in ((CODE, entries_of_code()), (DEFINITION, entries_of_definition())):
        differ = sum(a != b for a, b in zip(entries, doubles))
        print(f"{path}: {len(entries)} entries, {differ} differ from a double-precision sine, rounded")
        if len(entries) != LAST + 1 or differ:
            sys.exit(1)
    print(f"nearest to a tie: {min(abs(height % 1 - Decimal('0.5')) for height in heights()):.6f}")


def main():
    match sys.argv[1:]:
        case ["make"]:
            make()
        case ["compare"]:
            compare()
        case _:
            sys.exit(__doc__)


if __name__ == "__main__":
    main()
