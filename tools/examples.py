#!/usr/bin/env python3
"""Makes examples/NAME.out, what the program prints for examples/NAME.strip: the oracle's answers, and lines by the rules of 01 and 02 (c).
oracle/build.sh goes first. Run from the repository's root."""
import glob, subprocess, sys

sys.path.insert(0, "tools")
from line_cases import ORACLE, line, sizes


def output(text):
    run = subprocess.run([ORACLE, "read"], input=text.hex() + "\n", capture_output=True, text=True, check=True)
    answer, *verdict = run.stdout.rstrip("\n").split("\t")
    if not verdict:
        return answer + "\n"
    if verdict[0] != "accept":
        return verdict[0] + "\n"
    _, count, sheet = answer.split()
    sheet, at, lines = bytes.fromhex(sheet), 0, []
    for n in sizes([(text, sheet)])[0]:
        lines.append(line(sheet[at : at + n]))
        at += n
    return "\n".join(lines + [f"accept {count}"]) + "\n"


for path in sorted(glob.glob("examples/*.strip")):
    open(path[: -len("strip")] + "out", "w").write(output(open(path, "rb").read()))
