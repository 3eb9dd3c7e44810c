"""A fresh script from a text and its sheet, by the words of document 02 (f) and (h) and of 01: `answer` is what writing must answer.
Numbers are exact, whole ones over whole ones. An f32 is its bits; those of a size have no sign bit."""
import functools
import re

TEXT_LIMIT = 16384
SHEET_LIMIT = 65535
NESTED_LIMIT = 16
SIGN, INFINITY = 0x80000000, 0x7F800000

# ---- numbers: 01, "Numbers"


def nearest(above, below):
    """The size nearest to a fraction of 0 or more, a tie to the even one: IEEE 754."""
    k = max(0, ((above << 149) // below).bit_length() - 24)
    q, rest = divmod(above << 149, below << k)
    q += 2 * rest > below << k or (2 * rest == below << k and q % 2)
    return min(q + (k << 23), INFINITY)


def written_bits(text):
    """The f32 of digits with a point or none, an exponent or none, and a sign or none."""
    digits, _, power = text.lstrip("-").lower().partition("e")
    whole, _, part = digits.partition(".")
    power = int(power or "0") - len(part)
    return nearest(int(whole + part) * 10 ** max(power, 0), 10 ** max(-power, 0)) + SIGN * text.startswith("-")


def units(bits):
    """What a finite f32 is, times 2^149."""
    exponent, mantissa = divmod(bits % SIGN, 2**23)
    size = mantissa if exponent == 0 else (mantissa + 2**23) << (exponent - 1)
    return -size if bits >= SIGN else size


def is_finite(bits):
    return bits % SIGN < INFINITY


def is_nan(bits):
    return bits % SIGN > INFINITY


def negative(bits):
    """Below 0.0, as f32."""
    return bits > SIGN and not is_nan(bits)


def read_percent(n):
    """A whole percent n becomes n as f32, divided by 100.0: infinity stays one."""
    whole = nearest(n, 1)
    return nearest(units(whole), 100 << 149) if is_finite(whole) else whole


def least_digits(size, places):
    """The least n which, with so many digits behind the point, reads to the size, if there is one: n to its f32 rises. 02 (n) takes 40
    digits before the point."""
    n, scale = 0, 10**places
    if size:
        n = (units(size - 1) + units(size)) * scale >> 150  # what lies below the middle reads to a smaller f32
        n += nearest(n, scale) < size
    assert nearest(n, scale) >= size and (n == 0 or nearest(n - 1, scale) < size)
    return n if nearest(n, scale) == size and n < 10**40 * scale else None


@functools.cache
def digits(size):
    """The fewest digits that read to a size, the smallest in size of these; None if no written number does. Digits are all that are
    written, a 0 before the point too, so of those with p places the least has the fewest."""
    found = []
    for places in range(41) if size <= INFINITY else ():
        n = least_digits(size, places)
        if n is not None:
            all_digits = f"{n:0{places + 1}d}"
            point = len(all_digits) - places
            found.append((len(all_digits), n * 10 ** (40 - places), all_digits[:point] + "." * (places > 0) + all_digits[point:]))
    return min(found)[2] if found else None


@functools.cache
def percent_digits(size):
    """The same of a whole percent: the least n of at most 40 digits, found by halving: n to its f32 rises."""
    if size > INFINITY:
        return None
    low, high = -1, 10**40
    while high - low > 1:
        n = (low + high) // 2
        low, high = (low, n) if read_percent(n) >= size else (n, high)
    return str(high) if high < 10**40 and read_percent(high) == size else None


# ---- the sheet: 01, "The sheet", with 02 (a)'s start behind the kind

# The kinds of nodes, and their fields in ast.rs order; `?` is an optional one.
NODES = {
    "tween": "target:span from:value to:value duration:float easing:easing? delay:float? time_scale:float? loop:loop? snap:float? "
    "round:whole? reverse:truth",
    "spring": "target:span from:value to:value preset:spring? stiffness:float? damping:float? mass:float? velocity:value? epsilon:float? "
    "integrator:integrator? mode:damping?",
    "keyframes": "target:span frames:frames loop:loop?",
    "sequence": "nodes:nodes",
    "parallel": "nodes:nodes",
    "group": "mode:group nodes:nodes",
    "stagger": "pattern:pattern? delay:float? nodes:nodes",
    "path": "target:span svg:span duration:float easing:easing? auto_rotate:truth? offset:range? loop:loop?",
    "morph": "from:span to:span samples:whole duration:float easing:easing?",
    "draw": "svg:span duration:float easing:easing?",
    "color": "target:span from:span to:span duration:float space:space easing:easing?",
    "waveform": "kind:waveform frequency:float? amplitude:float? phase:float? duty_cycle:float? seed:whole? smoothness:float? "
    "duration:float?",
    "preset": "name:span duration:float? easing:easing?",
    "label": "text:span",
    "at": "value:float relative:truth",
}
# The enums: their cases in ast.rs order, by the words of parser.rs, with the sorts of their fields.
ENUMS = {
    "value": {"scalar": ["float"], "array": ["floats"]},
    "easing": {
        "named": ["truth", "span"],
        "cubic_bezier": ["float", "float", "float", "float"],
        "steps": ["whole"],
        "wiggle": ["whole"],
        "rough": ["float", "whole"],
        "slowmo": ["float", "float"],
    },
    "loop": {"once": [], "times": ["whole"], "forever": [], "ping_pong": [], "ping_pong_times": ["whole"]},
    "time": {"percent": ["float"], "seconds": ["float"]},
    "spring": dict.fromkeys(["gentle", "wobbly", "stiff", "slow", "snappy"], ()),
    "integrator": dict.fromkeys(["semi_implicit_euler", "rk4"], ()),
    "damping": {"critically_damped": ["float"], "overdamped": ["float", "float"], "underdamped": ["float", "float"]},
    "group": dict.fromkeys(["sequence", "parallel"], ()),
    "pattern": {"grid": ["whole", "whole", "origin"], "random": ["whole", "float", "float"], "center_out": [], "edges_in": []},
    "origin": dict.fromkeys("top_left top_right bottom_left bottom_right center top bottom left right".split(), ()),
    "space": dict.fromkeys(["linear", "lab", "oklch"], ()),
    "waveform": dict.fromkeys(["sine", "sawtooth", "square", "triangle", "noise"], ()),
}
ROWS = {kind: [tuple(row.split(":")) for row in rows.split()] for kind, rows in NODES.items()}
GROUPS = {"frame": ["time", "value", "easing?"], "range": ["float", "float"]}  # structs and pairs inside a node
LISTS = {"floats": "float", "frames": "frame", "nodes": "node"}  # a count, then the elements
WIDTHS = {"float": 4, "whole": 4, "truth": 1, "count": 2}


class NoSheet(Exception):
    pass


class Decoder:
    """Reads a tree: a node is its kind and a dictionary of its fields, an enum a tuple of its case and the fields of that, a name or a
    string its bytes. `places` has where in the sheet each value stands, with its sort."""

    def __init__(self, text, sheet):
        self.text, self.sheet, self.at, self.open, self.places = text, sheet, 0, 0, []

    def number(self, width):
        self.at += width
        if self.at > len(self.sheet):
            raise NoSheet
        return int.from_bytes(self.sheet[self.at - width : self.at], "big")

    def below(self, limit, width=1):
        n = self.number(width)
        if n >= limit:
            raise NoSheet
        return n

    def sort(self, sort):
        self.places.append((self.at, sort))
        if sort.endswith("?"):
            return self.sort(sort[:-1]) if self.below(2) else None
        if sort in WIDTHS:
            return self.below(2) if sort == "truth" else self.number(WIDTHS[sort])
        if sort in ENUMS:
            cases = list(ENUMS[sort].items())
            case, fields = cases[self.below(len(cases))]
            return (case, *map(self.sort, fields))
        if sort in GROUPS:
            return tuple(map(self.sort, GROUPS[sort]))
        if sort in LISTS:
            return [self.sort(LISTS[sort]) for _ in range(self.number(2))]
        return self.span() if sort == "span" else self.node()

    def span(self):
        start, length = self.number(2), self.number(2)
        if start + length > len(self.text):
            raise NoSheet
        return self.text[start : start + length]

    def node(self):
        kind = list(NODES)[self.below(len(NODES))]
        self.places.append((self.at, "start"))
        self.below(len(self.text), 2)
        self.open += "nodes" in NODES[kind]
        if self.open > NESTED_LIMIT:
            raise NoSheet
        fields = {name: self.sort(sort) for name, sort in ROWS[kind]}
        self.open -= "nodes" in NODES[kind]
        return kind, fields


def decode(text, sheet):
    """The nodes of a sheet for a text, without their starts, and where its values stand; NoSheet if it is none."""
    decoder = Decoder(text, sheet)
    nodes = decoder.sort("nodes")
    if decoder.at < len(sheet) or len(sheet) > SHEET_LIMIT:
        raise NoSheet
    return nodes, decoder.places


# ---- checking: validate.rs

EASINGS = ["linear"] + [
    f"ease_{way}_{curve}"
    for curve in "quad cubic quart quint sine expo circ back elastic bounce".split()
    for way in ("in", "out", "in_out")
]
PRESETS = (
    "fade_in fade_out slide_in slide_out scale_in scale_out bounce_in bounce_out modal_enter modal_exit drawer_open drawer_close "
    "toast_enter toast_exit page_enter page_exit stagger_children loading_pulse loading_wave shake wiggle heartbeat float shimmer"
).split()
COLORS = (
    "black white red green blue yellow cyan magenta gray grey orange purple pink brown lime teal navy maroon olive silver aqua fuchsia"
).split()


class Refused(Exception):
    """A refusal's number; its place is known where it is met."""


def rule(broken, number):
    if broken:
        raise Refused(number)


def snake(name):
    """`to_snake_case`."""
    return re.sub(rb"(?!^)([A-Z])", rb"_\1", name).lower()


def check_easing(easing):
    if easing and easing[0] == "named":
        _, path, name = easing
        rule((snake(name) if path else name).decode() not in EASINGS, 23)


def components(v):
    return 1 if v[0] == "scalar" else len(v[1])


def is_color(color):
    if color.startswith(b"#"):
        return len(color) in (4, 5, 7, 9) and re.fullmatch(rb"[0-9A-Fa-f]*", color[1:]) is not None
    return color.decode().lower() in COLORS


def same_time(a, b):
    """Whether the size of the f32 difference is below 2^-23. That of infinities is none or infinite."""
    if not (is_finite(a) and is_finite(b)):
        return False
    gap = abs(units(a) - units(b))
    return gap <= 2**126 and nearest(gap, 2**149) < nearest(1, 2**23)


def check_track(frames):
    rule(len(frames) < 2, 27)
    seen = []
    for (_, time), _, easing in frames:
        rule(any(same_time(before, time) for before in seen), 26)
        seen.append(time)
        check_easing(easing)


def outside(bits):
    """Not in 0.0 to 1.0; a NaN is not."""
    return is_nan(bits) or negative(bits) or bits % SIGN > 0x3F800000


def check_node(kind, f):
    none = 0x3F800000  # a number that breaks no rule
    if kind in ("tween", "path", "morph", "draw", "color"):
        rule(negative(f["duration"]), 21)
    if kind in ("tween", "spring"):
        rule(components(f["from"]) != components(f["to"]), 22)
    if kind == "tween":
        check_easing(f["easing"])
        rule(negative(f["time_scale"] or 0), 21)
        rule(negative(f["delay"] or 0), 21)
    elif kind == "spring":
        rule(negative(f["stiffness"] or 0), 21)
        for name in ("mass", "epsilon"):
            size = none if f[name] is None else f[name]
            rule(negative(size) or size % SIGN == 0, 21)
    elif kind == "keyframes":
        check_track(f["frames"])
    elif kind == "stagger":
        rule(f["pattern"] and f["pattern"][0] == "grid" and 0 in f["pattern"][1:3], 21)
    elif kind == "path":
        check_easing(f["easing"])
        rule(f["offset"] and any(map(outside, f["offset"])), 21)
    elif kind == "morph":
        rule(f["samples"] == 0, 21)
        check_easing(f["easing"])
    elif kind == "color":
        rule(not is_color(f["from"]), 25)
        rule(not is_color(f["to"]), 25)
        check_easing(f["easing"])
    elif kind == "draw":
        check_easing(f["easing"])
    elif kind == "waveform":
        rule(f["kind"] == ("noise",), 28)  # 02 (h)
        rule(negative(f["frequency"] or 0), 21)
    elif kind == "preset":
        rule(f["name"].decode() not in PRESETS, 24)
        check_easing(f["easing"])
        rule(negative(f["duration"] or 0), 21)


def preorder(nodes):
    for node in nodes:
        yield node
        yield from preorder(node[1].get("nodes", []))


def check(text, sheet):
    """What checking answers: None, or a refusal and its place; and the nodes."""
    if len(text) > TEXT_LIMIT:
        return (1, 0), None
    foreign = re.search(rb"[^\t\n\r -~]", text)
    if foreign:
        return (2, foreign.start()), None
    try:
        nodes, _ = decode(text, sheet)
    except NoSheet:
        return (20, 0), None
    for ordinal, (kind, fields) in enumerate(preorder(nodes), 1):
        try:
            check_node(kind, fields)
        except Refused as refusal:
            return (refusal.args[0], ordinal), None
    return None, nodes


# ---- the fresh script: 02 (f)

# Rust Reference, keywords, edition 2021, strict and reserved; and `_`.
NO_NAMES = set(
    "as break const continue crate else enum extern false fn for if impl in let loop match mod move mut pub ref return self Self static "
    "struct super trait true type unsafe use where while async await dyn abstract become box do final macro override priv typeof unsized "
    "virtual yield try _".split()
)


class Unwritable(Exception):
    """34: no text reads to the tree."""


def known(token):
    if token is None:
        raise Unwritable
    return token


def signed(bits, written):
    """Each sign a token."""
    return ["-"] * (bits >= SIGN) + [known(written(bits % SIGN))]


def number(bits):
    return signed(bits, digits)


def name(span):
    text = span.decode()
    return known(text if re.fullmatch(r"[A-Za-z_][A-Za-z0-9_]*", text) and text not in NO_NAMES else None)


def string(span):
    """Printable ASCII without `"` and `\\`."""
    text = span.decode()
    return known(f'"{text}"' if re.fullmatch(r'[ !#-\[\]-~]*', text) else None)


def parted(lists, mark=","):
    """Lists of tokens with a mark between: where the grammar needs one."""
    return [token for i, tokens in enumerate(lists) for token in [mark] * (i > 0) + tokens]


def scalar_or_array(v):
    if v[0] == "scalar":
        return number(v[1])
    return ["[", *parted(map(number, v[1])), "]"]


def field(word, tokens):
    return [word, ":", *tokens]


def present(*rows):
    """The fields that are not omitted. A row is a word, a value, what absence reads to, and how the value is written."""
    return [field(word, how(v)) for word, v, absent, how in rows if v != absent]


def whole(n):
    return [str(n)]


def word(case):
    return [case[0]]


def truth(flag):
    return [["false", "true"][flag]]


def in_parens(word, lists):
    return [word, "(", *parted(lists), ")"]


def easing(e):
    case, *f = e
    if case == "named":
        return ["Easing", "::"] * f[0] + [name(f[1])]
    if case == "cubic_bezier":
        return in_parens(case, map(number, f))
    if case in ("steps", "wiggle"):
        return in_parens(case, [whole(f[0])])
    if case == "rough":
        return in_parens(case, present(("strength", f[0], nearest(1, 2), number), ("points", f[1], 8, whole)))
    return in_parens(case, present(("linear_ratio", f[0], nearest(7, 10), number), ("power", f[1], nearest(2, 1), number)))


def loop(mode):
    case, *n = mode
    return in_parens("ping_pong" if case == "ping_pong_times" else case, map(whole, n)) if n else [case]


def pattern(p):
    case, *f = p
    if case == "grid":
        return in_parens(case, present(("cols", f[0], None, whole), ("rows", f[1], None, whole), ("origin", f[2], ("center",), word)))
    if case == "random":
        return in_parens(case, present(("seed", f[0], 0, whole), ("min", f[1], 0, number), ("max", f[2], nearest(1, 10), number)))
    return [case]


def damping(mode):
    case, *f = mode
    return field(case, ["(", *parted(map(number, f)), ")"])


def offset(pair):
    return [*number(pair[0]), "..", *number(pair[1])]


def frame(entry):
    (case, time), v, e = entry
    key = number(time) if case == "seconds" else [*signed(time, percent_digits), "%"]
    return [*key, ":", *scalar_or_array(v), *(easing(e) if e else [])]


def change(f):
    return [name(f["target"]), ":", *scalar_or_array(f["from"]), "=>", *scalar_or_array(f["to"])]


def rows(f, **forms):
    """The rows of fields that are there or not in the tree itself, or must be there, with how each is written."""
    return [(word, f[word], None, how) for word, how in forms.items()]


def listed(*rows):
    """The fields of a list, which need no separator."""
    return [token for tokens in present(*rows) for token in tokens]


def head(kind, f):
    """A node's tokens behind its keyword and before a container's `{`."""
    if kind == "tween":
        own = rows(f, duration=number, easing=easing, delay=number, time_scale=number, loop=loop, snap=number, round=whole)
        return change(f) + listed(*own, ("reverse", f["reverse"], 0, truth))
    if kind == "spring":
        own = rows(f, preset=word, stiffness=number, damping=number, mass=number, velocity=scalar_or_array, epsilon=number, integrator=word)
        return change(f) + listed(*own) + (damping(f["mode"]) if f["mode"] else [])
    if kind == "keyframes":
        lists = [*map(frame, f["frames"]), *present(*rows(f, loop=loop))]
        return [name(f["target"]), "{", *parted(lists), "}"]
    if kind == "group":
        return word(f["mode"])
    if kind == "stagger":
        return parted(present(*rows(f, pattern=pattern, delay=number)))
    if kind == "path":
        own = rows(f, duration=number, easing=easing, auto_rotate=truth, offset=offset, loop=loop)
        return [name(f["target"]), "along", string(f["svg"]), *listed(*own)]
    if kind == "morph":
        own = [("samples", f["samples"], 32, whole), *rows(f, duration=number, easing=easing)]
        return [string(f["from"]), "=>", string(f["to"]), *listed(*own)]
    if kind == "draw":
        return [string(f["svg"]), *listed(*rows(f, duration=number, easing=easing))]
    if kind == "color":
        own = [*rows(f, duration=number), ("space", f["space"], ("linear",), word), *rows(f, easing=easing)]
        return [name(f["target"]), ":", string(f["from"]), "=>", string(f["to"]), *listed(*own)]
    if kind == "waveform":
        forms = {row: whole if row == "seed" else number for row, _ in ROWS["waveform"][1:]}
        return word(f["kind"]) + listed(*rows(f, **forms))
    if kind == "preset":
        fields = listed(*rows(f, duration=number, easing=easing))
        return [name(f["name"]), *([","] * bool(fields)), *fields]
    if kind == "label":
        return [string(f["text"])]
    if kind == "at":
        if not f["relative"] and f["value"] >= SIGN:
            raise Unwritable
        return ["+"] * f["relative"] + number(f["value"])
    return []


def tokens(nodes):
    """The tokens of nodes, `;` after every one."""
    out = []
    for kind, fields in nodes:
        out += [kind, *head(kind, fields)]
        if "nodes" in fields:
            out += ["{", *tokens(fields["nodes"]), "}"]
        out.append(";")
    return out


def script(nodes):
    return " ".join(tokens(nodes)).encode()


def answer(text, sheet, room):
    """What writing answers with a buffer of so many bytes: a refusal and its place, or the script."""
    refusal, nodes = check(text, sheet)
    if refusal:
        return refusal
    try:
        fresh = script(nodes)
    except Unwritable:
        return 34, 0
    return fresh if len(fresh) <= min(TEXT_LIMIT, room) else (35, 0)
