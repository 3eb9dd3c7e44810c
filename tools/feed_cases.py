#!/usr/bin/env python3
"""Makes the stored cases `feed`: scripts fed one after another, and what 02 (b) says of them. The scripts are made of pieces
whose kinds and keyframe entries are known, and the refused ones are examples of 01's table of refusals with their places, so the counts
are those of what was written and of no sheet. Run from the repository's root."""
import math

from stored import store

LIMIT = 268_431_360
FEED, LESS_SCRATCH, LESS_SHEET, EMPTY, SET, TOTALS, MEANS = range(7)

# a node of each kind that holds no others, by its kind
LEAVES = {
    0: "tween p: 0 => 1 duration: 1;",
    1: "spring p: 0 => 1;",
    7: 'path p along "m" duration: 1;',
    8: 'morph "a" => "b" duration: 1;',
    9: 'draw "m" duration: 1;',
    10: 'color c: "red" => "blue" duration: 1;',
    11: "waveform sine frequency: 1;",
    12: "preset fade_in;",
    13: 'label "x";',
    14: "at 1;",
}
# what stands before the braces of a container, by its kind
CONTAINERS = {3: "sequence", 4: "parallel", 5: "group parallel", 6: "stagger delay: 1"}

# scripts that are refused, with number and place: 01's table and 02 (h)
REFUSED = [
    (b" " * 16385, 1, 0),
    (b"at 1x", 2, 3),
    (b"at " + 41 * b"1", 3, 3),
    (b"sequence {", 4, 10),
    (b"(" * 65, 5, 64),
    (b"tween : 0 => 1", 6, 6),
    (b"twen p: 0 => 1", 7, 5),
    (b"tween p: x => 1", 8, 9),
    (b"spring p: 0 => 1 preset: soft", 9, 29),
    (b"tween p: 0 => 1", 10, 15),
    (b"stagger pattern: grid(cols: 2) {}", 11, 29),
    (b"sequence{" * 17 + b"}" * 17, 12, 152),
    (b'draw "m" duration: 1 easing: steps(3, 4)', 13, 36),
    (b"waveform noise", 15, 14),
    (b"tween p: 0 => 1 duration: -1", 21, 1),
    (b"tween p: 0 => [] duration: 1", 22, 1),
    (b"tween p: 0 => 1 duration: 1 easing: fast", 23, 1),
    (b"preset fadein", 24, 1),
    (b'color c: "redd" => "red" duration: 1', 25, 1),
    (b"keyframes p {50%: 0, 0.5s: 1}", 26, 1),
    (b"keyframes p {0: 0}", 27, 1),
]


def track(n):
    """A track of n entries."""
    return "keyframes p {" + ", ".join(f"{i}: {i}" for i in range(n)) + "};"


class Sheet:
    """What the desk counts: the words of a morning sheet, from what is fed."""

    def __init__(self):
        self.lines, self.answers = [], []
        self.words = [0] * 60

    def put(self, what, data=b""):
        self.lines.append((bytes([what]) + data).hex().upper())

    def full(self):
        return any(w > LIMIT for w in self.words) or sum(self.words[:44]) >= 4096

    def feed(self, text, number=0, place=0, kinds=(), entries=0, how=FEED):
        self.put(how, text if isinstance(text, bytes) else text.encode())
        if self.full():
            self.answers.append("unfed refuse 33 at 0")
            return
        self.words[number] += 1
        if number:
            self.answers.append(f"refuse {number} at {place}")
            return
        for kind in kinds:
            self.words[44 + kind] += 1
        self.words[59] += entries
        self.answers.append("accept")

    def empty(self):
        self.put(EMPTY)
        self.words = [0] * 60

    def set(self, word, value):
        self.put(SET, bytes([word]) + value.to_bytes(4, "big"))
        self.words[word] = value

    def totals(self):
        self.put(TOTALS)
        self.answers.append(" ".join(map(str, self.words)) + " ")

    def means(self):
        self.put(MEANS)
        pairs = [(sum(self.words[44:59]), self.words[0]), (self.words[59], self.words[46])]
        for a, b in pairs:
            if any(w > LIMIT for w in self.words):
                self.answers.append("refuse 33 at 0")
            elif b == 0:
                self.answers.append("none")
            else:
                d = math.gcd(a, b)
                self.answers.append(f"{a // d}/{b // d}")


def main():
    s = Sheet()
    # empty totals, and one accepted empty script: 0/1 and none
    s.totals()
    s.means()
    s.feed("")
    s.totals()
    s.means()
    # each kind, alone and in containers, with nested tracks
    for kind, text in LEAVES.items():
        s.feed(text, kinds=[kind])
    for n in (2, 3, 8):
        s.feed(track(n), kinds=[2], entries=n)
    for kind, text in CONTAINERS.items():
        s.feed(text + " {}", kinds=[kind])
        s.feed(text + " {" + track(4) + LEAVES[14] + "}" + track(2), kinds=[kind, 2, 14, 2], entries=6)
    nested, kinds = track(5), [2]
    for depth in range(16):
        kind = 3 + depth % 4
        nested, kinds = CONTAINERS[kind] + " {" + nested + LEAVES[13] + "}", [kind] + kinds + [13]
    s.feed(nested, kinds=kinds, entries=5)
    s.totals()
    s.means()
    # each refusal, counted once; what checking refuses adds no record
    for text, number, place in REFUSED:
        s.feed(text, number, place)
    s.feed(LEAVES[0], 16, 0, how=LESS_SCRATCH)
    s.feed(LEAVES[0], 14, 0, how=LESS_SHEET)
    s.feed("", how=LESS_SHEET)
    s.feed(track(3) + "tween p: 0 => 1 duration: -1;" + track(2), 21, 2)
    s.totals()
    s.means()
    # a mean that reduces, and one that does not
    s.empty()
    for n in (2, 2, 2, 4, 5):
        s.feed(track(n), kinds=[2], entries=n)
    s.means()
    s.feed(track(3) + LEAVES[14] * 5, kinds=[2] + [14] * 5, entries=3)
    s.means()
    s.totals()
    # a figure at the limit may stand, and one above it may not; in each part of the totals
    for word in (0, 9, 43, 44, 58, 59):
        s.empty()
        s.set(word, LIMIT)
        s.means()
        s.feed(track(2), kinds=[2], entries=2)
        s.totals()
        s.empty()
        s.set(word, LIMIT + 1)
        s.means()
        s.feed(track(2), kinds=[2], entries=2)
        s.totals()
    s.empty()
    for word in range(44, 60):
        s.set(word, LIMIT)
    s.set(0, 4095)
    s.means()
    s.feed(LEAVES[14], kinds=[14])
    s.totals()
    s.empty()
    s.set(59, 4294967295)
    s.feed("", kinds=[])
    # 4,096 scripts are counted, one after another, and the next is not
    s.empty()
    for i in range(4098):
        if i % 3 == 0:
            s.feed("")
        elif i % 3 == 1:
            s.feed(LEAVES[14], kinds=[14])
        else:
            s.feed(b"x", 7, 1)
    s.feed(b"\xff", 2, 0)
    s.totals()
    s.means()
    # the count is over all numbers
    s.empty()
    s.set(7, 4000)
    s.set(43, 95)
    s.feed("")
    s.feed("")
    s.totals()
    store("feed", s.lines, s.answers)


main()
