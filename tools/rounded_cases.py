#!/usr/bin/env python3
"""Makes scripts, and for each how many of its written numbers are rounded, by document 02 (d) over exact fractions.
A line is a script in hexadecimal, a tab, and the count, or `refused`.

  rounded_cases.py NUMBERS [SEED]            write cases with at least so many numbers
  rounded_cases.py NUMBERS [SEED] --lib A.a  run them through strip_read of an archive instead, and say where the counts differ
  rounded_cases.py --store                   make the stored cases `rounded`: those below, and short ones. Run it from the repository's
                                             root
"""
import random
import subprocess
import sys
import tempfile
from fractions import Fraction

from numbers_drawn import drawn
from stored import store

ANSWERER = r"""
#include <stdint.h>
#include <stdio.h>
#include <string.h>
uint64_t strip_read(const uint8_t *, size_t, uint16_t *, size_t, uint8_t *, size_t);
static uint16_t scratch[64];
static uint8_t sheet[49152], text[32768];
static char line[65536];
static int digit(char c) { return c <= '9' ? c - '0' : c - 'a' + 10; }
int main(void) {
    while (fgets(line, sizeof line, stdin)) {
        size_t n = strcspn(line, "\n") / 2;
        for (size_t i = 0; i < n; i++) text[i] = digit(line[2 * i]) * 16 + digit(line[2 * i + 1]);
        uint64_t r = strip_read(text, n, scratch, 64, sheet, 49152);
        if (r >> 56) puts("refused"); else printf("%u\n", (unsigned) (r >> 40 & 65535));
    }
}
"""


def f32(x):
    """The f32 nearest to the fraction x, a tie to the even one, as a fraction; None for an infinity."""
    units = abs(x) * 2**149
    k = max(0, (units.numerator // units.denominator).bit_length() - 24)
    units /= 2**k
    q, rest = divmod(units.numerator, units.denominator)
    q += 2 * rest > units.denominator or (2 * rest == units.denominator and q % 2)
    size = Fraction(q * 2**k, 2**149)
    return None if size >= 2**128 else -size if x < 0 else size


def stored_percent(n):
    """A whole percent n becomes n as f32, divided by 100.0; None for an infinity."""
    whole = f32(Fraction(n))
    return None if whole is None else f32(whole / 100)


class Script:
    """A script that is being written: its text, and how many of its numbers are rounded."""

    def __init__(self, pick):
        self.pick, self.parts, self.numbers, self.rounded = pick, [], 0, 0

    def put(self, *words):
        self.parts += words

    def written(self):
        """A number's digits and their value."""
        pick = self.pick
        kind = pick.randrange(9)
        if kind == 8:  # 02 (n): long ones, and exponents
            return drawn(pick)
        if kind == 0:
            return pick.choice(["0", "0.0", "1", "0.5", "0.25", "0.1", "0.3", "16777216", "16777217", "33554434", "33554435", "0.000000001"])
        if kind == 1:  # a half, a quarter, ..: exact where the digits fit
            places = pick.randrange(1, 10)
            whole = pick.randrange(10 ** pick.randrange(1, 8))
            part = pick.randrange(2**places) * 5**places
            return f"{whole}.{part:0{places}d}"
        if kind == 2:  # around what 24 binary digits hold
            return str((pick.randrange(2**23, 2**24) << pick.randrange(9)) + pick.randrange(-2, 3))
        if kind == 3:
            return str(pick.randrange(10 ** pick.randrange(1, 11)))
        places = pick.randrange(1, 10)
        return f"{pick.randrange(10 ** pick.randrange(1, 11))}.{pick.randrange(10**places):0{places}d}"

    def count(self, exact):
        self.numbers += 1
        self.rounded += not exact

    def sign(self):
        return self.pick.choice(["", "", "", "-", "- "])

    def float(self):
        sign, digits = self.sign(), self.written()
        value = Fraction(digits) * (-1 if sign else 1)
        self.count(f32(value) == value)
        self.put(sign + digits + self.pick.choice(["", "", "s"]))

    def uint(self):
        self.numbers += 1
        self.put(str(self.pick.choice([0, 1, 16777217, 4294967295, self.pick.randrange(2**32)])))

    def key(self):
        """A keyframe's time: seconds, or a percent n, which is rounded if its f32 is not n / 100."""
        if self.pick.randrange(2):
            return self.float()
        sign = self.sign()
        n = self.pick.choice([
            self.pick.randrange(101), self.pick.randrange(10 ** self.pick.randrange(1, 11)), self.pick.randrange(2**24 - 5, 2**24 + 5),
            100 * self.pick.randrange(2**23, 2**24), 100 * self.pick.randrange(2**24, 10**8), 1677721500, 1677721400,
            self.pick.randrange(10 ** self.pick.randrange(11, 41)), 2**128 - 2**103 - self.pick.randrange(2)])
        self.count(stored_percent(n) == Fraction(n, 100))
        self.put(f"{sign}{n}" + self.pick.choice(["%", " %"]))

    def value(self):
        if self.pick.randrange(3):
            return self.float()
        self.put("[")
        for i in range(self.pick.randrange(5)):
            if i:
                self.put(",")
            self.float()
        self.put("]")

    def easing(self):
        kind = self.pick.randrange(6)
        if kind == 0:
            self.put("cubic_bezier(")
            for i in range(4):
                if i:
                    self.put(",")
                self.float()
            self.put(")")
        elif kind == 1:
            self.put(self.pick.choice(["steps(", "wiggle("]))
            self.uint()
            self.put(")")
        elif kind == 2:
            self.put("rough(")
            self.fields([("strength", self.float), ("points", self.uint)], ",")
            self.put(")")
        elif kind == 3:
            self.put("slowmo(")
            self.fields([("linear_ratio", self.float), ("power", self.float)], ",")
            self.put(")")
        else:
            self.put(self.pick.choice(["linear", "ease_in_quad", "Easing::EaseOutCubic"]))

    def loop(self):
        kind = self.pick.randrange(4)
        if kind < 2:
            return self.put(["once", "ping_pong"][kind])
        self.put(["times(", "ping_pong("][kind - 2])
        self.uint()
        self.put(")")

    def fields(self, rows, comma=""):
        """Some of the fields, any of them twice: a later one overrides, and both were written."""
        for i in range(self.pick.randrange(5)):
            if i and comma:
                self.put(comma)
            name, value = self.pick.choice(rows)
            self.put(name + ":")
            value()

    def flag(self):
        self.put(self.pick.choice(["true", "false"]))

    def pair(self):
        self.put("(")
        self.float()
        self.put(",")
        self.float()
        self.put(")")

    def duration(self):
        self.put("duration:")
        self.float()

    def node(self, depth=0):
        pick = self.pick
        kind = pick.choice(["tween", "spring", "keyframes", "path", "morph", "draw", "color", "waveform", "preset", "label", "at", "at"]
                           + (["sequence", "group", "stagger"] if depth < 3 else []))
        self.put(kind)
        f, e, u = self.float, self.easing, self.uint
        if kind in ("tween", "spring"):
            self.put("p:")
            self.value()
            self.put("=>")
            self.value()
        if kind == "tween":
            self.duration()
            self.fields([("duration", f), ("easing", e), ("delay", f), ("time_scale", f), ("loop", self.loop), ("snap", f), ("round", u),
                         ("reverse", self.flag)])
        elif kind == "spring":
            damping = [(name, self.pair) for name in ("overdamped", "underdamped")]
            self.fields([("stiffness", f), ("damping", f), ("mass", f), ("velocity", self.value), ("velocity", self.value), ("epsilon", f)]
                        + damping)
        elif kind == "keyframes":
            self.put("p {")
            for i in range(pick.randrange(6)):
                if i:
                    self.put(pick.choice([",", ";"]))
                self.key()
                self.put(":")
                self.value()
                if not pick.randrange(4):
                    e()
            self.put("}")
        elif kind == "path":
            self.put('p along "M 0.1 0.2"')
            self.duration()
            self.fields([("easing", e), ("auto_rotate", self.flag), ("offset", self.range), ("loop", self.loop)])
        elif kind == "morph":
            self.put('"a" => "b"')
            self.duration()
            self.fields([("samples", u), ("easing", e)])
        elif kind == "draw":
            self.put('"M 0.1"')
            self.duration()
            self.fields([("easing", e), ("duration", f)])
        elif kind == "color":
            self.put('p: "red" => "#abc"')
            self.duration()
            self.fields([("easing", e)])
        elif kind == "waveform":
            self.put("sine")
            self.fields([(name, f) for name in ("frequency", "amplitude", "phase", "duty_cycle", "smoothness", "duration")] + [("seed", u)])
        elif kind == "preset":
            self.put("fade_in")
            if pick.randrange(2):
                self.put("(")
                self.fields([("duration", f), ("easing", e)], ",")
                self.put(")")
            if pick.randrange(2):
                self.put(",")
                self.fields([("duration", f), ("easing", e)])
        elif kind == "label":
            self.put('"0.1"')
        elif kind == "at":
            self.put(pick.choice(["", "+", "-"]))
            f()
        elif kind == "stagger":
            if pick.randrange(2):
                self.put("pattern: random(")
                self.fields([("seed", u), ("min", f), ("max", f)], ",")
                self.put("), delay:")
                f()
            self.block(depth)
        elif kind == "group":
            self.put("parallel")
            self.block(depth)
        elif kind == "sequence":
            self.block(depth)
        self.put(";")

    def range(self):
        self.float()
        self.put("..")
        self.float()

    def block(self, depth):
        self.put("{")
        for _ in range(self.pick.randrange(4)):
            self.node(depth + 1)
        self.put("}")


# The request's words, each with its count.
SAID = [
    ("", 0), ("at 0.5", 0), ("at 0.1", 1), ("at -0", 0), ("at --0.1", 1), ("at +0.1;at -0.1", 2), ("at 16777216", 0), ("at 16777217", 1),
    ("at 9999999999.999999999", 1), ("at 0.000000001s", 1),
    # a percent by its end value
    ("keyframes p {0%: 0, 25%: 0, 50%: 0, 100%: 0}", 0), ("keyframes p {1%: 0, 33%: 0}", 2), ("keyframes p {1677721500%: 0}", 0),
    ("keyframes p {1677721400%: 0}", 1), ("keyframes p {16777217%: 0, - 1%: 0.1}", 3), ("keyframes p {0.1: 0.1, 0.1s: [0.1, 0.5, 0.1]}", 5),
    # a default is not written, and a u32 is kept
    ("stagger pattern: random() {}", 0), ("stagger pattern: random(max: 0.1) {}", 1), ("stagger delay: 0.1 {at 0.1}", 2),
    ("tween p: 0 => 1 duration: 1 easing: rough()", 0), ("tween p: 0 => 1 duration: 1 easing: slowmo(linear_ratio: 0.7)", 1),
    ("tween p: 0 => 1 duration: 1 round: 16777217 loop: times(16777217)", 0), ("waveform sine seed: 16777217 phase: 16777217", 1),
    # once each time it is written
    ("tween p: 0 => 1 duration: 0.1 duration: 1", 1), ("tween p: 0.1 => [0.1] duration: 0.1 duration: 0.1", 4),
    ("spring p: 0 => 1 velocity: 0.1", 1), ("spring p: 0 => 1 velocity: [0.1, 0.5, 0.2] velocity: 0.1", 3),
    ("preset fade_in(duration: 0.1), duration: 0.1", 2), ('path p along "M" duration: 1 offset: 0.1..0.2', 2),
    # on a refusal 0, which the program tells as `refused`
    ("at 0.1 )", "refused"), ("at 0.1; at", "refused"), ("tween p: 0.1 => 1 duration: 0.1 easing: steps(3, 4)", "refused"),
]


def stored():
    """The cases of the gate: at most 65,535 bytes of lines, and 1,000 bytes a script."""
    room = 65535
    for text, count in SAID + [(t, c) for t, c in cases(20000, 3) if len(t) <= 1000]:
        room -= 2 * len(text) + 1
        if room < 0:
            return
        yield text, str(count)


def cases(numbers, seed):
    pick = random.Random(seed)
    written = 0
    while written < numbers:
        s = Script(pick)
        for _ in range(pick.randrange(1, 12)):
            s.node()
        text = " ".join(s.parts)
        if pick.randrange(40) == 0:
            yield text + " #", "refused"
        elif pick.randrange(40) == 0:
            yield text + " sequence { at 0.1; } at 0.1 )", "refused"
        elif len(text) <= 16384:
            written += s.numbers
            yield text, str(s.rounded)


def store_cases():
    made = list(stored())
    store("rounded", [text.encode().hex() for text, _ in made], [count for _, count in made])
    print(len(made), "cases")


def main():
    if sys.argv[1:] == ["--store"]:
        return store_cases()
    args = [a for a in sys.argv[1:] if a != "--lib"]
    archive = args.pop() if "--lib" in sys.argv else None
    numbers, seed = int(args[0]), int(args[1]) if len(args) > 1 else 1
    made = [(text, str(count)) for text, count in SAID] + list(cases(numbers, seed))
    if archive is None:
        for text, count in made:
            print(f"{text.encode().hex()}\t{count}")
        return
    with tempfile.TemporaryDirectory() as folder:
        open(f"{folder}/a.c", "w").write(ANSWERER)
        subprocess.run(["cc", "-O1", "-o", f"{folder}/a", f"{folder}/a.c", archive], check=True)
        asked = "".join(text.encode().hex() + "\n" for text, _ in made)
        answers = subprocess.run([f"{folder}/a"], input=asked, capture_output=True, text=True, check=True).stdout.split("\n")
    wrong = [(text, count, answer) for (text, count), answer in zip(made, answers) if count != answer]
    for text, count, answer in wrong[:5]:
        print(f"{count} wanted, {answer} answered: {text}")
    total = sum(int(c) for _, c in made if c != "refused")
    print(f"{len(made)} scripts, {numbers} numbers or more, {total} rounded: {len(wrong)} differ")
    sys.exit(bool(wrong))


main()
