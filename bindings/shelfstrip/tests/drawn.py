#!/usr/bin/env python3
"""Draws the SVG of each waveform by rsvg-convert, and looks for the curve where it has to be. Leaves FOLDER/KIND.svg and KIND.png.
usage: drawn.py PROGRAM FOLDER"""
import math, shutil, subprocess, sys
import png

PROGRAM, FOLDER = sys.argv[1:3]
PHASE = 24


def triangle(turn):
    return 4 * turn if turn < 0.25 else 2 - 4 * turn if turn < 0.75 else 4 * turn - 4


# each kind's height at a part of the period, from -1 to 1
KINDS = {
    "sine": lambda turn: math.sin(2 * math.pi * turn),
    "sawtooth": lambda turn: 2 * turn - 1,
    "square": lambda turn: 1 if turn < 0.5 else -1,
    "triangle": triangle,
}


def dark(pixel):
    return max(pixel) < 100


def compare(rows, height_at):
    """Whether the curve goes through its place in every 16th column, and is nowhere else in it."""
    for x in range(8, 512, 16):
        wanted = 128 - 120 * height_at((x / 512 + PHASE / 256) % 1)
        found = [y for y in range(256) if dark(rows[y][x])]
        # the curve is 2 wide; a steep one is higher in a column
        assert found and all(abs(y + 0.5 - wanted) <= 4 for y in found), (x, wanted, found)


def main():
    if shutil.which("rsvg-convert") is None:
        print("shelfstrip's SVG: not drawn, there is no rsvg-convert")
        return
    for kind, height_at in KINDS.items():
        svg, picture = f"{FOLDER}/{kind}.svg", f"{FOLDER}/{kind}.png"
        subprocess.run([PROGRAM, "wave", kind, "--phase", str(PHASE), "--svg", svg], check=True, stdout=subprocess.DEVNULL)
        subprocess.run(["rsvg-convert", "--output", picture, svg], check=True)
        rows = png.read(picture)
        assert (len(rows), len(rows[0])) == (256, 512)
        compare(rows, height_at)
    print(f"shelfstrip's SVG: {len(KINDS)} waveforms drawn, 32 places of each compared")


main()
