#!/usr/bin/env python3
"""Garbles each byte that a line of examples/*.out spells, to each of its 255 other values, and swaps each two that stand side by side. By 02 (c)
the sum of a line's bytes is zero modulo 256, tells every change of one byte, and no swap. Run from the repository's root."""
import glob, re

lines = changed = swapped = untold = 0
for path in sorted(glob.glob("examples/*.out")):
    for row in open(path).read().splitlines():
        if not re.fullmatch(r"(?:[0-9A-F]{2})+", row):
            continue
        spelled = bytearray.fromhex(row)
        lines += 1
        assert sum(spelled) % 256 == 0, row
        for i, byte in enumerate(spelled):
            for other in range(256):
                if other != byte:
                    changed += 1
                    untold += (sum(spelled) - byte + other) % 256 == 0
        for i in range(len(spelled) - 1):
            other = spelled[:i] + spelled[i + 1 : i + 2] + spelled[i : i + 1] + spelled[i + 2 :]
            swapped += 1
            assert sum(other) % 256 == 0, row
print(f"{lines} lines: {changed} changes of one byte, {untold} not told; {swapped} swaps, none told")
assert untold == 0
