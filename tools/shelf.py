#!/usr/bin/env python3
"""Stores the cases `shelf` (tools/stored.py): 01's shelf tests, but for P13, which is no script, scripts at its limits, and those of
examples/. The records of the first two are written here by hand from 01 and 02 (a), and their lines follow by the rule of 02 (c); what the
examples print is in examples/*.out. Run from the repository's root."""
import glob

import stored


def line(record):
    covered = len(record).to_bytes(2, "big") + record
    return (covered + bytes([-sum(covered) % 256])).hex().upper()


def accepted(top, *records):
    """The lines of the head and of these records, in hexadecimal; top is the count of top nodes."""
    lines = [line(bytes.fromhex(r)) for r in (f"{top:04X}", *records)]
    return lines + [f"accept {len(records)}"]


def refused(number, place):
    return [f"refuse {number} at {place}"]


# kind, start, target, from, to; then duration, easing, delay, time scale, loop, snap, round, reverse
TWEEN = "00 0000 0006 0001 00 00000000 00 3F800000"
# kind, start, target, count; then frames of time, value, easing; then loop
FRAMES = "02 0000 000A 0001 0002 {} 00"

SHELF = [
    ("", accepted(0)),
    ("at 0.5;", accepted(1, "0E 0000 3F000000 00")),
    ("at -0", accepted(1, "0E 0000 80000000 01")),
    ("at --1", accepted(1, "0E 0000 3F800000 01")),
    ("tween p: 0 => 1 duration: 0.5s easing: linear", accepted(1, TWEEN + "3F000000 01 00 00 0027 0006 00 00 00 00 00 00")),
    ("tween p: 0 => 1 duration: 1 reverse: true reverse: false", accepted(1, TWEEN + "3F800000 00 00 00 00 00 00 01")),
    ("tween p: 0 => 1 duration: 1 easing: steps(3, 4)", refused(13, 43)),
    ("keyframes p {50s%: 0}", refused(8, 17)),
    ("keyframes p {2.5%: 0}", refused(6, 16)),
    ("keyframes p {50%: 0, 0.5s: 1}", refused(26, 1)),
    ("keyframes p {0: 0, 0.000000119: 1}", refused(26, 1)),
    ("keyframes p {0: 0, 0.00000012: 1}", accepted(1, FRAMES.format("01 00000000 00 00000000 00 01 3400D959 00 3F800000 00"))),
    ("tween p: 0 => 1 duration: -0", accepted(1, TWEEN + "80000000 00 00 00 00 00 00 00")),
    ("tween p: 0 => 1 duration: -1", refused(21, 1)),
    ("keyframes p {16777216: 0, 16777217: 1}", refused(26, 1)),
    ("at 0.1", accepted(1, "0E 0000 3DCCCCCD 00")),
]

# 16,384 and 16,385 bytes; 16 and 17 containers; 64 and 65 openers; 10 and 11 digits, by 02 (n) 40 and 41; 0 to [5] and to []
LIMITS = [
    ("at 0.5;".ljust(16384), accepted(1, "0E 0000 3F000000 00")),
    ("at 0.5;".ljust(16385), refused(1, 0)),
    ("sequence {" * 16 + "}" * 16, accepted(1, *[f"03 {10 * i:04X} 0001" for i in range(15)], "03 0096 0000")),
    ("sequence {" * 17 + "}" * 17, refused(12, 169)),
    ("(" * 64 + ")" * 64, refused(6, 0)),
    ("(" * 65 + ")" * 65, refused(5, 64)),
    ("at " + 30 * "0" + "1234567890", accepted(1, "0E 0000 4E932C06 00")),
    ("at " + 31 * "0" + "1234567890", refused(3, 3)),
    ("tween p: 0 => [5] duration: 1", accepted(1, "00 0000 0006 0001 00 00000000 01 0001 40A00000 3F800000 00 00 00 00 00 00 00")),
    ("tween p: 0 => [] duration: 1", refused(22, 1)),
]


def too_long():
    """A script that is accepted, with a record that the output has no room for: 100 frames, the last with a long array."""
    frames = ",".join(f"{i}:0" for i in range(99))
    numbers = (16384 - len("keyframes p{" + frames + ",99:[]}")) // 2
    text = "keyframes p{" + frames + ",99:[" + ",".join(["0"] * numbers) + "]}"
    record = 9 + 99 * 11 + (5 + 3 + 4 * numbers + 1) + 1
    assert len(text) <= 16384 and record <= 49150 and 2 * record + 7 > 65536
    return (text, [line(bytes.fromhex("0001")), "refuse 32 at 1"])


def example(path):
    return (open(path).read(), open(path[: -len("strip")] + "out").read().splitlines())


cases = SHELF + LIMITS + [too_long()] + [example(path) for path in sorted(glob.glob("examples/*.strip"))]
stored.store("shelf", [text.encode().hex().upper() for text, _ in cases], [l for _, lines in cases for l in lines])
