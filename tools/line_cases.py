#!/usr/bin/env python3
"""Makes the stored cases `line`: texts with sheets, good and damaged, and the lines of the records by the rules of 01 and 02 (c).
The sizes of the records are the oracle's, so oracle/build.sh goes first. Run from the repository's root."""
import gzip, subprocess

from stored import store

ORACLE = "target/oracle/places/release/oracle"
ROOM = 101  # the bytes of output that the program lends
SHELF = [("", "0000"), ("617420302E353B", "00010E00003F00000000")]  # P1 and P2
LONG = [(bytes(16385), b""), (bytes(16384), b"")]


def sizes(cases):
    """For each case the sizes of its records, or None if the bytes are no sheet. Of a text only the length matters."""
    lines = "".join(f"{'78' * len(text)}\t{sheet.hex()}\n" for text, sheet in cases)
    run = subprocess.run([ORACLE, "records"], input=lines, capture_output=True, text=True, check=True)
    answers = [line.split() for line in run.stdout.splitlines()]
    return [None if words[0] == "no" else [int(w) for w in words[1:]] for words in answers]


def foreign(text):
    return next((i for i, b in enumerate(text) if b not in b"\t\n\r" and not 32 <= b <= 126), None)


def line(record):
    covered = len(record).to_bytes(2, "big") + record
    return (covered + bytes([-sum(covered) % 256])).hex().upper()


def answer(text, sheet, record_sizes):
    if len(text) > 16384:
        return ["refuse 1 at 0"]
    if foreign(text) is not None:
        return [f"refuse 2 at {foreign(text)}"]
    if record_sizes is None:
        return ["refuse 20 at 0"]
    lines, at = [], 0
    for k, n in enumerate(record_sizes):
        if 2 * n + 7 > ROOM:
            return lines + [f"refuse 32 at {k}"]
        lines.append(line(sheet[at : at + n]))
        at += n
    return lines + [f"refuse 31 at {len(record_sizes)}"]


def stored():
    """Short cases of the stored answers: some of each first kind of node, of each refusal, and at the limit of the room."""
    rows = [row.split("\t") for row in gzip.open("oracle/answers/check.txt.gz", "rt")]
    cases = [(bytes.fromhex(row[0]), bytes.fromhex(row[1])) for row in rows if len(row[0]) <= 160 and len(row[1]) <= 240]
    seen = {}
    for (text, sheet), found in zip(cases, sizes(cases)):
        if foreign(text) is not None:
            sorts = ["foreign"]
        elif found is None:
            sorts = [f"no sheet, kind {b}" for b in sheet[2:3]]
        else:
            sorts = [f"kind {b}" for b in sheet[2:3]] + [f"size {n}" for n in found if 45 <= n <= 49]
        few = [s for s in sorts if seen.get(s, 0) < 3]
        for s in few:
            seen[s] = seen.get(s, 0) + 1
        if few:
            yield text, sheet


def main():
    cases = [(bytes.fromhex(text), bytes.fromhex(sheet)) for text, sheet in SHELF] + list(stored()) + LONG
    answers = [line for (text, sheet), found in zip(cases, sizes(cases)) for line in answer(text, sheet, found)]
    store("line", [f"{text.hex()}\t{sheet.hex()}".upper() for text, sheet in cases], answers)


if __name__ == "__main__":
    main()
