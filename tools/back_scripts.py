"""Generated scripts of motion nodes, most of which reading and checking accept, odd f32 and damaged sheets: all kinds, all fields, nested
containers, numbers of every size."""
from fractions import Fraction

import back_writer as writer
import numbers_drawn as numbers
from back_writer import ENUMS, INFINITY, SIGN, written_bits

NAN = 0x7FC00000
WAVES = [word for word in ENUMS["waveform"] if word != "noise"]  # 02 (h): no text has noise


class Script:
    """A script that is being written: its tokens. Most of them pass checking."""

    NUMBERS = (
        "0 0.0 00 1 0.5 0.25 0.1 0.7 2 8 32 0.3 16777216 16777217 10000000 100000000 4294967296 9999999999 9999999999.999999999 "
        "0.000000001 007 00.50 0000000000 0.000000000 1.25e-3 1e2 1E+2 0e99 1e-45 7e-46 1e38 4e38 1e-99 340282356779733661637539395458142568447 "
        "340282356779733661637539395458142568448 0.0000000000000000000000000000000000000001 0.1000000000000000055511151231257827021182"
    ).split()
    NAMES = "p x opacity _a A1 s e1 __ tween easing along Easing once r b loop_ duration union auto a1b2_c3 at label".split()

    def __init__(self, pick):
        self.pick, self.parts = pick, []

    def put(self, *words):
        self.parts += words

    def chance(self, percent):
        return self.pick.randrange(100) < percent

    def written(self):
        """A number's digits."""
        pick = self.pick
        kind = pick.randrange(10)
        if kind == 9:  # 02 (n): long ones, and exponents
            return numbers.drawn(pick)
        if kind == 0:
            return pick.choice(self.NUMBERS)
        if kind == 1:  # exact where the digits fit
            places = pick.randrange(1, 10)
            return f"{pick.randrange(10 ** pick.randrange(1, 8))}.{pick.randrange(2**places) * 5**places:0{places}d}"
        if kind == 2:  # around what 24 binary digits hold, and between two f32
            return str((pick.randrange(2**23, 2**25) << pick.randrange(8)) + pick.randrange(-2, 3))
        if kind == 3:
            return str(pick.randrange(10 ** pick.randrange(1, 11)))
        if kind == 4:  # near a power of ten
            k, places = pick.randrange(-8, 10), pick.randrange(0, 10)
            near = max(0, (10 ** max(k, 0) * 10**places // 10 ** max(-k, 0)) + pick.randrange(-2, 3))
            return f"{near // 10**places}" + (f".{near % 10**places:0{places}d}" if places else "")
        if kind < 7:
            return f"{pick.randrange(100)}.{pick.randrange(100)}" if pick.randrange(2) else str(pick.randrange(100))
        places = pick.randrange(1, 10)
        return f"{pick.randrange(10 ** pick.randrange(1, 11))}.{pick.randrange(10**places):0{places}d}"

    def size(self):
        """A number that is not negative."""
        self.put(self.written() + self.pick.choice(["", "", "", "s"]))

    def positive(self):
        digits = self.written()
        self.put(digits if Fraction(digits) else "0.5")

    def float(self):
        if self.chance(30):
            self.put("-")
        self.size()

    def duration(self):
        if self.chance(2):
            self.put("-")
            return self.put(self.pick.choice(["0", "0.0", "00"]))
        self.size()

    def uint(self):
        self.put(str(self.pick.choice([0, 1, 8, 32, 16777217, 4294967295, self.pick.randrange(2**32)])))

    def count(self):
        self.put(str(self.pick.choice([1, 2, 32, 4294967295, self.pick.randrange(1, 2**32)])))

    def name(self):
        letters = "abcXYZ_019"
        self.put(self.pick.choice([self.pick.choice(self.NAMES), "n" + "".join(self.pick.choices(letters, k=self.pick.randrange(20)))]))

    def string(self):
        printable = [chr(b) for b in range(32, 127) if chr(b) not in '"\\']
        self.put('"' + "".join(self.pick.choices(printable, k=self.pick.choice([0, 1, 5, 12, 30]))) + '"')

    def color(self):
        if self.chance(50):
            name = self.pick.choice(writer.COLORS)
            return self.put('"' + self.pick.choice([name, name.upper(), name.title()]) + '"')
        self.put('"#' + "".join(self.pick.choices("0123456789abcdefABCDEF", k=self.pick.choice([3, 4, 6, 8]))) + '"')

    def array(self, count):
        self.put("[")
        for i in range(count):
            self.put(*[","] * (i > 0))
            self.float()
        self.put(*[","] * (count > 0 and self.chance(20)), "]")

    def value(self, count=None):
        """A value; with a count, one of so many components."""
        if count is None and self.chance(60) or count == 1 and self.chance(70):
            return self.float()
        self.array(self.pick.choice([0, 1, 2, 3, 4, 9]) if count is None else count)

    def change(self):
        count = self.pick.choice([1, 1, 1, 1, 0, 2, 3, 5])
        self.name()
        self.put(":")
        self.value(count)
        self.put("=>")
        self.value(count)

    def in_parens(self, word, forms):
        self.put(word, "(")
        for i, form in enumerate(forms):
            self.put(*[","] * (i > 0))
            form()
        self.put(")")

    def fields_in_parens(self, word, rows, needed=()):
        chosen = [self.pick.choice(rows) for _ in range(self.pick.choice([0, 1, 1, 2, 3]))] + list(needed)
        self.pick.shuffle(chosen)
        self.put(word, "(")
        for i, (name, form) in enumerate(chosen):
            self.put(*[","] * (i > 0), name, ":")
            form()
        self.put(*[","] * (bool(chosen) and self.chance(20)), ")")

    def easing(self):
        kind = self.pick.randrange(9)
        if kind < 3:
            return self.put(self.pick.choice(writer.EASINGS))
        if kind == 3:  # any name that becomes a known one in snake case
            first, *rest = self.pick.choice(writer.EASINGS).split("_")
            words = [self.pick.choice([first, first.title()])] + [self.pick.choice(["_" + word, word.title()]) for word in rest]
            return self.put("Easing", "::", "".join(words))
        if kind == 4:
            return self.in_parens("cubic_bezier", [self.float] * 4)
        if kind < 7:
            return self.in_parens(["steps", "wiggle"][kind - 5], [self.uint])
        if kind == 7:
            return self.fields_in_parens("rough", [("strength", self.float), ("points", self.uint)])
        self.fields_in_parens("slowmo", [("linear_ratio", self.float), ("power", self.float)])

    def loop(self):
        kind = self.pick.randrange(5)
        if kind < 3:
            return self.put(["once", "forever", "ping_pong"][kind])
        self.in_parens(["times", "ping_pong"][kind - 3], [self.uint])

    def flag(self):
        self.put(self.pick.choice(["true", "false"]))

    def word(self, sort):
        return lambda: self.put(self.pick.choice(list(ENUMS[sort])))

    def offset(self):
        part = lambda: self.put(self.pick.choice(["0", "1", "0.5", "1.0", "0.000000001", f"0.{self.pick.randrange(10**9)}"]))
        part()
        self.put("..")
        part()

    def fields(self, rows, needed=()):
        """Some of the fields, any of them twice, with commas or without, and the `;`."""
        many = len(rows) if self.chance(10) else self.pick.choice([0, 0, 1, 1, 2, 3, 5])
        chosen = [self.pick.choice(rows) for _ in range(many)] + list(needed)
        self.pick.shuffle(chosen)
        comma = self.pick.choice([0, 50, 100])
        self.put(*[","] * self.chance(comma))
        for name, form in chosen:
            self.put(name, ":")
            form()
            self.put(*[","] * self.chance(comma))
        self.put(";")

    def key(self, seen):
        """A keyframe's time that lies apart from those before, and its f32."""
        while True:
            sign = ["-"] * self.chance(15)
            if self.chance(50):
                n = self.pick.randrange(self.pick.choice([101, 10 ** self.pick.randrange(1, 11), 2**24 + 5]))
                words, time = [str(n), "%"], writer.read_percent(n)
            else:
                words = [self.written()]
                time = written_bits(words[0])
            time += SIGN * len(sign)
            if not any(writer.same_time(before, time) for before in seen) or self.chance(1):
                seen.append(time)
                return self.put(*sign, *words)

    def track(self):
        self.name()
        self.put("{")
        frames = self.pick.choice([2, 2, 2, 3, 4, 6, 12]) if not self.chance(1) else self.pick.randrange(2)
        looped = self.pick.randrange(frames + 1) if self.chance(40) else None
        seen = []
        for i in range(frames):
            if i == looped:
                self.put("loop", ":")
                self.loop()
                self.put(*[","] * self.chance(50))
            self.key(seen)
            self.put(":")
            self.value()
            if self.chance(40):
                self.easing()
            self.put(*[self.pick.choice([",", ";"])] * (i + 1 < frames or looped == frames or self.chance(30)))
        if looped == frames:
            self.put("loop", ":")
            self.loop()
        self.put("}", *[";"] * self.chance(50))

    def pattern(self):
        kind = self.pick.randrange(5)
        if kind < 2:
            rows = [("cols", self.count), ("rows", self.count)]
            return self.fields_in_parens("grid", rows + [("origin", self.word("origin"))] * 2, rows)
        if kind < 4:
            return self.fields_in_parens("random", [("seed", self.uint), ("min", self.float), ("max", self.float)])
        self.put(self.pick.choice(["center_out", "edges_in"]))

    def block(self, depth, most):
        self.put("{")
        for _ in range(self.pick.randrange(1 + most)):
            self.node(depth + 1)
        self.put("}", *[";"] * self.chance(50))

    def node(self, depth=0):
        leaves = ["tween", "spring", "keyframes", "path", "morph", "draw", "color", "waveform", "preset", "label", "at"]
        containers = ["sequence", "parallel", "group", "stagger"]
        self.put(*[";"] * self.chance(5))
        kind = self.pick.choice(leaves + (containers if depth < 3 or depth < 16 and self.chance(30) else []))
        self.put(kind)
        f, e, u, lasting = self.float, self.easing, self.uint, [("duration", self.duration)]
        if kind == "tween":
            self.change()
            rows = [("easing", e), ("loop", self.loop), ("snap", f), ("round", u), ("reverse", self.flag)]
            self.fields(rows + [("delay", self.duration), ("time_scale", self.duration)], lasting)
        elif kind == "spring":
            self.change()
            pair = lambda: (self.put("("), f(), self.put(","), f(), self.put(")"))
            self.fields([("preset", self.word("spring")), ("stiffness", self.duration), ("damping", f), ("mass", self.positive),
                         ("velocity", self.value), ("epsilon", self.positive), ("integrator", self.word("integrator")),
                         ("critically_damped", lambda: (self.put("("), f(), self.put(")"))), ("overdamped", pair), ("underdamped", pair)])
        elif kind == "keyframes":
            self.track()
        elif kind == "path":
            self.name()
            self.put("along")
            self.string()
            self.fields([("easing", e), ("auto_rotate", self.flag), ("offset", self.offset), ("loop", self.loop)], lasting)
        elif kind == "morph":
            self.string()
            self.put("=>")
            self.string()
            self.fields([("samples", self.count), ("easing", e)], lasting)
        elif kind == "draw":
            self.string()
            self.fields([("easing", e)], lasting)
        elif kind == "color":
            self.name()
            self.put(":")
            self.color()
            self.put("=>")
            self.color()
            self.fields([("easing", e), ("space", self.word("space"))], lasting)
        elif kind == "waveform":
            self.put(self.pick.choice(WAVES))
            rows = [(name, f) for name in ("amplitude", "phase", "duty_cycle", "smoothness", "duration")]
            self.fields(rows + [("frequency", self.duration), ("seed", u)])
        elif kind == "preset":
            name, rows = self.pick.choice(writer.PRESETS), [("easing", e), *lasting]
            self.fields_in_parens(name, rows) if self.chance(40) else self.put(name)
            if self.chance(50):
                self.put(",")
                self.fields(rows)
            else:
                self.put(";")
        elif kind == "label":
            self.string()
            self.put(";")
        elif kind == "at":
            sign = self.pick.choice(["", "+", "-"])
            self.put(*[sign] * bool(sign))
            f() if sign else self.size()
            self.put(*[";"] * self.chance(70))
        else:
            if kind == "group":
                self.word("group")()
            elif kind == "stagger":
                rows = [("pattern", self.pattern), ("delay", f)]
                chosen = [self.pick.choice(rows) for _ in range(self.pick.choice([0, 1, 1, 2, 3]))]
                for i, (name, form) in enumerate(chosen):
                    self.put(*[","] * (i > 0), name, ":")
                    form()
                self.put(*[","] * (bool(chosen) and self.chance(20)))
            self.block(depth, 3 if depth < 3 else 1)

    def text(self):
        """The tokens with blanks between, as few or as many as one likes."""
        blanks = self.pick.choice([["", "", "", " "], [" "], [" ", "", "\n", "\t", "\r\n", "   "]])
        out = self.pick.choice(["", "", " ", "\n"])
        for token in self.parts:
            apart = out[-1:].isalnum() or out[-1:] in ("_", '"')
            close = token[0].isalnum() or token[0] in '_"'
            between = self.pick.choice(blanks)
            out += (between or " " if apart and close else between) + token
        return (out + self.pick.choice(["", "", " ", "\n"])).encode()


def generated(pick):
    script = Script(pick)
    for _ in range(pick.choice([1, 1, 1, 2, 3, 5, 8]) if pick.randrange(200) else pick.randrange(50, 400)):
        script.node()
    return script.text()


def damaged(pick, text, sheet):
    """A sheet with some of its numbers, names, strings or marks changed."""
    places = writer.decode(text, sheet)[1]
    floats = [at for at, sort in places if sort == "float"]
    spans = [at for at, sort in places if sort == "span"]
    sheet = bytearray(sheet)
    for _ in range(pick.choice([1, 1, 2, 4])):
        kind = pick.randrange(10)
        if kind < 4 and floats:
            at = pick.choice(floats)
            sheet[at : at + 4] = odd_float(pick).to_bytes(4, "big")
        elif kind < 8 and spans:
            at, start = pick.choice(spans), pick.randrange(len(text) + 1)
            length = min(pick.choice([0, 1, 2, 3, 8, 70000]), len(text) - start + (pick.randrange(40) == 0))
            sheet[at : at + 4] = start.to_bytes(2, "big") + length.to_bytes(2, "big")
        elif places:
            at, _ = pick.choice(places)
            if at < len(sheet):
                sheet[at] = pick.choice([0, 1, 2, 4, sheet[at] ^ 1, pick.randrange(256)])
    return bytes(sheet)


def odd_float(pick):
    """The bits of an f32 of any sort: four in ten are near a written number."""
    kind = pick.randrange(10)
    sign = SIGN * pick.randrange(2)
    if kind < 2:
        return pick.getrandbits(32)
    if kind == 2:  # very small ones, of which some are written and some are not
        return sign + pick.randrange(2 ** pick.randrange(1, 26))
    if kind == 3:
        return sign + pick.randrange(written_bits("0.000000001"), written_bits("10000000000"))
    if kind == 4:
        return sign + pick.choice([0, NAN, INFINITY, INFINITY + 1, INFINITY - 1, 1, written_bits("0.1"), written_bits("1")])
    if kind == 5:  # near a power of two
        return (sign + (pick.randrange(256) << 23) + pick.randrange(-4, 5)) % 2**32
    if kind == 6:  # near a power of ten
        k = pick.randrange(-46, 40)
        return (sign + writer.nearest(10 ** max(k, 0), 10 ** max(-k, 0)) + pick.randrange(-4, 5)) % 2**32
    return (sign + written_bits(Script(pick).written()) + pick.choice([0, 0, 0, 0, 1, -1, 2, -2])) % 2**32
