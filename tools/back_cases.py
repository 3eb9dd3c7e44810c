#!/usr/bin/env python3
"""Scripts written back from a text and its sheet, against tools/back_writer.py, which goes by document 02 (f). Run it from the
repository's root.

  back_cases.py --store                    make the stored cases `back`: a line is a text, a sheet and the buffer's length, all in
                                           hexadecimal; its answer `accept LENGTH SCRIPT` or `refuse R at P`, a tab, and whether the rest of
                                           the buffer is zero
  back_cases.py --stored --lib A.a         run these through strip_write of an archive, and say where the answers differ
  back_cases.py N SEED --lib A.a           N generated scripts that reading and checking accept, each read, written and read again: whether
                                           the answers are right, and the trees equal but for starts; and the Rust's stored sheets, damaged
                                           sheets and short buffers
  back_cases.py --floats N SEED --lib A.a  N bit patterns of f32, each as a relative `at` and as a percent time, written and read again
  back_cases.py --percents N SEED --lib A.a
                                           N whole percents of 1 to 40 digits: the f32 that each reads to, or one beside it, as a percent
                                           time, written and read again
  back_cases.py --time ROUNDS --lib A.a    the least time of reading and of writing, by turns, for each script of examples/ repeated to
                                           10 KB
"""
import glob
import random
import subprocess
import sys
import tempfile
from collections import Counter

import back_writer as writer
from archive import CLOCK, compiled, without_archive
from back_scripts import NAN, damaged, generated, odd_float
from back_writer import ENUMS, GROUPS, INFINITY, LISTS, NODES, ROWS, SIGN, WIDTHS, written_bits
from stored import store, stored_answers, stored_cases

ANSWERER = r"""
#include <stdint.h>
#include <stdio.h>
#include <stdlib.h>
#include <string.h>
uint64_t strip_read(const uint8_t *, size_t, uint16_t *, size_t, uint8_t *, size_t);
uint64_t strip_write(const uint8_t *, size_t, const uint8_t *, size_t, uint8_t *, size_t, uint32_t);
static uint16_t scratch[64];
static uint8_t text[65536], sheet[131072], out[65536 + 64];
static char line[524288];
static int digit(char c) { return c <= '9' ? c - '0' : (c & 7) + 9; }
static size_t unhex(const char *s, uint8_t *to) {
    size_t n = 0;
    for (; s[2 * n] > ' '; n++) to[n] = digit(s[2 * n]) * 16 + digit(s[2 * n + 1]);
    return n;
}
static void refuse(uint64_t a) { printf("refuse %u at %u", (unsigned)(a >> 56), (unsigned)a); }
static void read_text(size_t n) {
    uint64_t a = strip_read(text, n, scratch, 64, sheet, 49152);
    if (a >> 56) refuse(a);
    else for (size_t i = 0; i < (a & 0xFFFFFF); i++) printf("%02X", sheet[i]);
    puts("");
}
static void write_back(size_t n, size_t m, size_t room) {
    size_t used = 0, zero = 1, past = 1;
    memset(out, 7, room + 64);
    uint64_t a = strip_write(text, n, sheet, m, out, room, 1);
    if (a >> 56) refuse(a);
    else {
        used = (uint32_t) a;
        printf("accept %zu %.*s", used, (int) used, out);
    }
    for (size_t i = used; i < room; i++) zero &= !out[i];
    for (size_t i = room; i < room + 64; i++) past &= out[i] == 7;
    printf("\t%s%s\n", zero ? "zero" : "not zero", past ? "" : ", written past the buffer");
}
int main(void) {
    while (fgets(line, sizeof line, stdin)) {
        char *end = line + strcspn(line, "\t\n"), *next;
        size_t n = unhex(line, text);
        if (*end == '\n') { read_text(n); continue; }
        next = end + 1 + strcspn(end + 1, "\t");
        write_back(n, unhex(end + 1, sheet), strtoul(next, 0, 16));
    }
}
"""

TIMER = (
    r"""
#define _POSIX_C_SOURCE 200809L
#include <stdint.h>
#include <stdio.h>
#include <stdlib.h>
#include <time.h>
uint64_t strip_read(const uint8_t *, size_t, uint16_t *, size_t, uint8_t *, size_t);
uint64_t strip_write(const uint8_t *, size_t, const uint8_t *, size_t, uint8_t *, size_t, uint32_t);
static uint16_t scratch[64];
static uint8_t text[16384], sheet[49152], out[16384];
"""
    + CLOCK
    + r"""
int main(int argc, char **argv) {
    size_t n = fread(text, 1, sizeof text, stdin);
    double read = 1e9, write = 1e9;
    uint64_t a = 0, b = 0;
    for (long i = argc > 1 ? atol(argv[1]) : 1; i > 0; i--) {
        double start = now();
        a = strip_read(text, n, scratch, 64, sheet, 49152);
        double middle = now();
        b = strip_write(text, n, sheet, a & 0xFFFFFF, out, sizeof out, 1);
        double end = now();
        if (middle - start < read) read = middle - start;
        if (end - middle < write) write = end - middle;
    }
    if (a >> 56 || b >> 56) return 1;
    printf("%zu bytes, written as %u: read %.1f us, write %.1f us, ratio %.2f\n", n, (unsigned)b, read, write, write / read);
}
"""
)

ROOM = 16640  # what the program of the stored cases can lend


class Pair:
    """A text and a sheet, made together: a name or string that is in the text already stands for its first place there, another is added;
    a pair of numbers is a start and a length itself."""

    def __init__(self, nodes, text=b""):
        self.text = text
        self.sheet = self.list("node", nodes)
        self.text = self.text or b" "  # a start is below the text's length

    def case(self, room=ROOM):
        return self.text, self.sheet, room

    def list(self, sort, values):
        return len(values).to_bytes(2, "big") + b"".join(self.sort(sort, v) for v in values)

    def sort(self, sort, v):
        if sort.endswith("?"):
            return b"\0" if v is None else b"\1" + self.sort(sort[:-1], v)
        if sort in WIDTHS:
            return (written_bits(v) if isinstance(v, str) else int(v)).to_bytes(WIDTHS[sort], "big")
        if sort in ENUMS:
            case, *fields = (v,) if isinstance(v, str) else v
            return bytes([list(ENUMS[sort]).index(case)]) + b"".join(map(self.sort, ENUMS[sort][case], fields))
        if sort in GROUPS:
            return b"".join(map(self.sort, GROUPS[sort], v))
        if sort in LISTS:
            return self.list(LISTS[sort], v)
        return self.span(v) if sort == "span" else self.node(*v)

    def span(self, v):
        if isinstance(v, str):
            v = v.encode()
            if v not in self.text:
                self.text += v
            v = self.text.index(v), len(v)
        return v[0].to_bytes(2, "big") + v[1].to_bytes(2, "big")

    def node(self, kind, fields):
        values = [self.sort(sort, fields.get(name)) for name, sort in ROWS[kind]]
        return bytes([list(NODES).index(kind), 0, 0]) + b"".join(values)


# ---- the stored cases

ONE = ("scalar", "1")
FRAMES = [(("percent", "0"), ONE, None), (("seconds", "1"), ONE, None)]
# For each kind a node with no field that may be left out, and values for each field.
LEAST = {
    "tween": {"target": "p", "from": ONE, "to": ONE, "duration": "1", "reverse": 0},
    "spring": {"target": "p", "from": ONE, "to": ONE},
    "keyframes": {"target": "p", "frames": FRAMES},
    "sequence": {"nodes": []},
    "parallel": {"nodes": []},
    "group": {"mode": "sequence", "nodes": []},
    "stagger": {"nodes": []},
    "path": {"target": "p", "svg": "M 0", "duration": "1"},
    "morph": {"from": "a", "to": "b", "samples": 32, "duration": "1"},
    "draw": {"svg": "M 0", "duration": "1"},
    "color": {"target": "p", "from": "red", "to": "#abc", "duration": "1", "space": "linear"},
    "waveform": {"kind": "sine"},
    "preset": {"name": "fade_in"},
    "label": {"text": "x"},
    "at": {"value": "1", "relative": 0},
}
AT = ("at", LEAST["at"])
SAMPLES = {
    "float": ["0", "-0", "0.1", "9999999.5"],
    "whole": [0, 32, 4294967295],
    "truth": [0, 1],
    "span": ["_1", "fade_out"],
    "value": [("scalar", "-0.5"), ("array", []), ("array", ["1"]), ("array", ["-1", "0", "2.5"])],
    "easing": [
        ("named", 0, "linear"),
        ("named", 1, "EaseInOutQuad"),
        ("named", 1, "ease_inQuad"),
        ("cubic_bezier", "0.25", "-1", "0", "1"),
        ("steps", 0),
        ("wiggle", 4294967295),
        ("rough", "0.5", 8),
        ("rough", "0.5", 9),
        ("rough", "-0.5", 8),
        ("rough", "0.25", 0),
        ("slowmo", "0.7", "2"),
        ("slowmo", "0.7", "3"),
        ("slowmo", "0.6", "2"),
        ("slowmo", "-0", "0"),
    ],
    "loop": ["once", ("times", 0), "forever", "ping_pong", ("ping_pong_times", 3)],
    "pattern": [
        ("grid", 3, 2, "center"),
        *(("grid", 1, 4294967295, origin) for origin in ENUMS["origin"] if origin != "center"),
        ("random", 0, "0", "0.1"),
        ("random", 1, "0", "0.1"),
        ("random", 0, "-0", "0.1"),
        ("random", 0, "0", "-0.1"),
        ("random", 7, "0.25", "0"),
        "center_out",
        "edges_in",
    ],
    "damping": [("critically_damped", "1"), ("overdamped", "1", "2.5"), ("underdamped", "-0", "0.5")],
    "range": [("0", "1"), ("-0", "0.25")],
    "frames": [
        [
            (("percent", "0"), ("array", []), ("named", 1, "Linear")),
            (("seconds", "0.5"), ("scalar", "-2"), ("steps", 2)),
            (("percent", "-1"), ONE, None),
        ],
    ],
    "nodes": [[AT], [AT, ("sequence", {"nodes": [("parallel", {"nodes": [AT]}), AT]}), ("label", {"text": "y"})]],
}


def samples(sort):
    return SAMPLES.get(sort.rstrip("?")) or list(ENUMS[sort.rstrip("?")])


def full(kind):
    """A node with every field."""
    fields = {name: samples(sort)[-1] if sort.endswith("?") else LEAST[kind][name] for name, sort in ROWS[kind]}
    return kind, fields


def each_field():
    """Each kind with no field that may be left out, with every one, and each field alone with its values: all easings in a tween, some
    elsewhere. Two values together, since they must have as many components."""
    for kind, least in LEAST.items():
        yield Pair([(kind, least)]).case()
        yield Pair([full(kind)]).case()
        for name, sort in ROWS[kind]:
            for v in samples(sort)[:: 5 if sort == "easing?" and kind != "tween" else 1]:
                yield Pair([(kind, {**least, name: v})]).case()
    for v in SAMPLES["value"]:
        yield Pair([("tween", {**LEAST["tween"], "from": v, "to": v})]).case()


def each_value_spoiled():
    """A node of each kind with every field, and each of its numbers, names and strings made what cannot be written, one at a time."""
    for kind in LEAST:
        made = Pair([full(kind)])
        text = made.text + b' "_'
        spoils = {"float": [NAN.to_bytes(4, "big")], "span": [(len(text) - k).to_bytes(2, "big") + b"\0\1" for k in (1, 2)]}
        for at, sort in writer.decode(made.text, made.sheet)[1]:
            for spoil in spoils.get(sort, []):
                yield text, made.sheet[:at] + spoil + made.sheet[at + 4 :], ROOM


def at_node(v, relative=1):
    return ("at", {"value": v, "relative": relative})


def percent_track(v):
    """A track with a percent time, and another time that lies apart from it."""
    size = (written_bits(v) if isinstance(v, str) else v) % SIGN
    other = "0.25" if size > written_bits("0.5") else "0.75"
    return ("keyframes", {"target": "p", "frames": [(("percent", v), ONE, None), (("seconds", other), ONE, None)]})


# requests.md, (f): numbers and how they are written.
NUMBERS = {
    "10000000": "9999999.5",
    "100000000": "99999996",
    "16777216": "16777216",
    "4294967296": "4294967168",
    "10000000000": "9999999489",
    "0.1": "0.1",
    "0": "0",
    "0.000000001": "0.000000001",
    "9999999999.999999999": "9999999489",
}


def numbers():
    for read, written in NUMBERS.items():
        case = Pair([at_node(read, 0), at_node(read), at_node("-" + read)]).case()
        assert writer.answer(*case) == f"at {written} ; at + {written} ; at + - {written} ;".encode()
        yield case
    for n in ("0", "0.01", "-0", "-0.5", "1", "0.29", "0.07", "167772.16", "167772.17", "16777215", "42949672.96", "99999999.99"):
        yield Pair([percent_track(n)]).case()
    # one f32 further on either side: for some no written number is left
    for near in ("0.000000001", "0.0000001", "0.001", "1", "16777216", "10000000000"):
        for step in (-1, 1):
            yield Pair([at_node(written_bits(near) + step)]).case()
            yield Pair([percent_track(written_bits(near) + step)]).case()


def causes():
    """Each cause of 34."""
    floats = [NAN, 0x7F800001, 0xFFFFFFFF, INFINITY, INFINITY + SIGN, 1, 0x007FFFFF, 0x50000000, 0x7F7FFFFF, SIGN + 1]
    for v in floats:
        yield Pair([at_node(v)]).case()
        yield Pair([at_node(v, 0)]).case()
        yield Pair([percent_track(v)]).case()
    for v in ("0.005", "0.015", "-0.005", "0.1234", "10000000000"):
        yield Pair([percent_track(v)]).case()
        yield Pair([at_node(v)]).case()
    for v in ("-1", "-0", "1", "0"):  # no text reads to a negative absolute one
        yield Pair([at_node(v, 0)]).case()
    for target in ["", "loop", "true", "Self", "try", "dyn", "_", "__", "_a", "a b", " a", "1a", "a.", "tween", "union", "a", "Z9"]:
        for kind in ("tween", "spring", "keyframes", "path", "color"):
            if kind == "tween" or target in ("", "_", "loop", "a b", "a"):
                yield Pair([(kind, {**LEAST[kind], "target": target})]).case()
    for string in ['"', "\\", "\t", "\n", "\r", 'a"b', "", " ", "!#[]~", "'`;{}"]:
        yield Pair([("label", {"text": string})]).case()
        yield Pair([("path", {**LEAST["path"], "svg": string})]).case()
        yield Pair([("draw", {**LEAST["draw"], "svg": string})]).case()
        yield Pair([("morph", {**LEAST["morph"], "from": string})]).case()
        yield Pair([("morph", {**LEAST["morph"], "to": string})]).case()


def long_script(length):
    """Labels over one long string, whose script has so many bytes."""
    string = "x" * 340
    labels, rest = divmod(length + 1, len(f'label "{string}" ; '))
    text = string + "y" * (rest - len('label "" ; '))
    return Pair([("label", {"text": string})] * labels + [("label", {"text": text[len(string) :]})], text.encode())


def rooms():
    """35 by the buffer and by 16,384; 34 before 35; the text's ends."""
    for nodes in ([], [AT], [full("tween"), ("sequence", {"nodes": [full("spring")]})]):
        made = Pair(nodes)
        length = len(writer.answer(*made.case()))
        for room in sorted({0, 1, max(length - 1, 0), length, length + 1}):
            yield made.case(room)
    for length, lent in (16384, (16383, 16384)), (16385, (16384, 16385)), (16600, (ROOM,)):
        made = long_script(length)
        assert len(writer.script(writer.decode(made.text, made.sheet)[0])) == length
        for room in lent:
            yield made.case(room)
    last = Pair([AT, full("spring"), ("sequence", {"nodes": [AT, at_node(NAN)]})])
    for room in (0, 3, ROOM):
        yield last.case(room)
    yield Pair([*[("label", {"text": "x" * 340})] * 47, ("label", {"text": '"'})]).case()
    yield Pair([("keyframes", {"target": "loop", "frames": FRAMES[:1]}), at_node(NAN)]).case(0)  # checking's refusal first
    yield Pair([("tween", {**LEAST["tween"], "from": ("array", [])}), at_node(NAN)]).case(0)
    for nodes in ([("label", {"text": (0, 0)}), ("label", {"text": (0, 1)}), ("label", {"text": (2, 1)}), ("label", {"text": (3, 0)})],
                  [("tween", {**LEAST["tween"], "target": (0, 1)}), ("tween", {**LEAST["tween"], "target": (2, 1)})],
                  [("label", {"text": (0, 3)})], [("label", {"text": (3, 1)})], [("label", {"text": (4, 0)})]):
        yield Pair(nodes, b"p q").case()
    for text in (b"", b"x"):
        for sheet in (b"", b"\0", b"\0\0", b"\0\0\0", b"\0\1"):
            yield text, sheet, 9


def retired():
    """02 (h): noise, which checking refuses, first, behind what cannot be written, beside a bad frequency and behind one."""
    noise, falls = {"kind": "noise"}, {"frequency": "-1"}
    yield Pair([("waveform", noise)]).case()
    yield Pair([at_node(NAN), ("sequence", {"nodes": [("waveform", {**noise, "phase": NAN})]})]).case(0)
    yield Pair([("waveform", {**noise, **falls})]).case()
    yield Pair([("waveform", {"kind": "sine", **falls}), ("waveform", noise)]).case()


def nested(depth):
    nodes = [AT]
    for k in range(depth):
        kind = list(LEAST)[3 + k % 4]
        nodes = [(kind, {**LEAST[kind], "nodes": nodes})]
    return Pair(nodes).case()


def checked():
    """Cases of the Rust's stored verdicts, some of each number, which writing refuses as checking does."""
    seen = Counter()
    for case, verdict in zip(stored_cases("check"), stored_answers("check")):
        text, sheet = case.split("\t")
        number = verdict.split(" at ")[0]
        if verdict != "accept" and len(text) + len(sheet) <= 300 and seen[number] < 4:
            seen[number] += 1
            case = bytes.fromhex(text), bytes.fromhex(sheet), 64
            assert said(writer.answer(*case)).startswith(verdict + "\t")
            yield case


def accepted():
    """The texts of the Rust's stored answers which reading and checking accept, each with the Rust's sheet."""
    for text, answer in zip(stored_cases("script"), stored_answers("script")):
        if answer.endswith("\taccept"):
            yield bytes.fromhex(text), bytes.fromhex(answer.split("\t")[0].split()[-1]), ROOM


def stored():
    """The cases of the gate. The last two are a text that is too long, and one of the longest size."""
    cases = [*each_field(), *each_value_spoiled(), *numbers(), *causes(), *rooms(), *retired(), nested(16), nested(17), *checked()]
    cases += [case for case in accepted() if len(case[0]) + len(case[1]) < 400][::15]
    return [*dict.fromkeys(cases), (bytes(16385), b"", 64), (bytes(16384), b"", 64)]


def asked(case):
    text, sheet, room = case
    return f"{text.hex()}\t{sheet.hex()}\t{room:04x}\n".upper()


def said(answer):
    """An answer as the program writes it; the rest of the buffer is zero by 02 (f)."""
    if isinstance(answer, tuple):
        return "refuse {} at {}\tzero".format(*answer)
    return f"accept {len(answer)} {answer.decode()}\tzero"


def store_cases():
    made = stored()
    store("back", [asked(case).rstrip("\n") for case in made], [said(writer.answer(*case)) for case in made])
    print(len(made), "cases")


# ---- through an archive


class Library:
    """An archive's functions, which answer lines."""

    def __init__(self, archive, folder):
        self.program = compiled(ANSWERER, archive, folder)

    def answer(self, asked):
        done = subprocess.run([self.program], input="".join(asked), capture_output=True, text=True, check=True)
        return done.stdout.split("\n")[:-1]

    def read(self, texts):
        """For each text its sheet, or None."""
        answers = self.answer([f"{text.hex()}\n" for text in texts])
        return [None if answer.startswith("refuse") else bytes.fromhex(answer) for answer in answers]

    def write(self, cases):
        return self.answer(map(asked, cases))


class Report:
    """How often each answer came up, and what differs."""

    def __init__(self):
        self.wrong, self.counts = 0, Counter()

    def differ(self, what, *shown):
        self.wrong += 1
        if self.wrong <= 10:
            print(what, *(part[:600] for part in shown), sep="\n    ")

    def compare(self, case, wanted, got):
        text, sheet, room = case
        self.counts[" ".join(wanted.split()[:2]) if wanted[0] == "r" else "accept"] += 1
        if wanted != got:
            self.differ("ANSWERS DIFFER", repr(text), sheet.hex(), f"buffer of {room}", f"wanted {wanted}", f"got    {got}")

    def end(self, what):
        print(what, {key: self.counts[key] for key in sorted(self.counts)}, f"{self.wrong} differ", sep="; ")
        sys.exit(bool(self.wrong))


def run_stored(library):
    report = Report()
    rows = [line.split("\t") for line in stored_cases("back")]
    cases = [(bytes.fromhex(text), bytes.fromhex(sheet), int(room, 16)) for text, sheet, room in rows]
    for case, wanted, got in zip(cases, stored_answers("back"), library.write(cases), strict=True):
        report.compare(case, wanted, got)
    report.end(f"{len(cases)} stored cases")


def rooms_for(pick, wanted):
    """Lengths of a buffer that suit an answer."""
    if not isinstance(wanted, bytes):
        return [pick.choice([0, 3, 100, 16384, 65535])]
    short = [pick.randrange(len(wanted))] if wanted and pick.randrange(4) == 0 else []
    return [pick.choice([16384, 65535, len(wanted)])] + short


def run_pairs(library, pick, pairs, report):
    """Writes each accepted or damaged pair, and reads what was written again. Gives how many were accepted."""
    cases = []
    for text, sheet in pairs:
        wanted = writer.answer(text, sheet, 65535)
        for room in rooms_for(pick, wanted):
            cases.append((text, sheet, room, wanted if not isinstance(wanted, bytes) or len(wanted) <= room else (35, 0)))
    for (*case, wanted), got in zip(cases, library.write(case[:3] for case in cases)):
        report.compare(case, said(wanted), got)
    compare_trees(library, [(text, sheet, wanted) for text, sheet, _, wanted in cases], report)


def compare_trees(library, answers, report):
    """Reads each script that was written: its tree must be the sheet's, but for starts."""
    fresh = [case for case in answers if isinstance(case[2], bytes)]
    for (text, sheet, script), again in zip(fresh, library.read(case[2] for case in fresh)):
        if again is None or writer.decode(script, again)[0] != writer.decode(text, sheet)[0]:
            report.differ("ANOTHER TREE", repr(text), sheet.hex(), repr(script))


def run_scripts(library, count, seed):
    pick, report, accepted_count, kinds = random.Random(seed), Report(), 0, Counter()
    run_pairs(library, pick, [case[:2] for case in accepted()], report)
    while accepted_count < count:
        texts = [generated(pick) for _ in range(min(1000, count - accepted_count + 20))]
        texts = [text for text in texts if len(text) <= writer.TEXT_LIMIT]
        pairs = []
        for text, sheet in zip(texts, library.read(texts)):
            if sheet is None:
                report.counts["unread"] += 1
                continue
            refusal, nodes = writer.check(text, sheet)
            if refusal is None and accepted_count < count:
                accepted_count += 1
                kinds.update(kind for kind, _ in writer.preorder(nodes))
            pairs.append((text, sheet))
            if pick.randrange(2):
                pairs.append((text, damaged(pick, text, sheet)))
        run_pairs(library, pick, pairs, report)
    print("nodes:", dict(kinds))
    report.end(f"{accepted_count} generated scripts accepted")


def run_floats(library, count, seed):
    """Each pattern alone in a sheet, so that none hides another."""
    pick, report = random.Random(seed), Report()
    for start in range(0, count, 20000):
        patterns = [odd_float(pick) for _ in range(min(20000, count - start))]
        for node in (at_node, percent_track):
            report.counts[f"as {node.__name__}"] += len(patterns)
            cases = [Pair([node(v)]).case(100) for v in patterns]
            answers = [writer.answer(*case) for case in cases]
            for case, wanted, got in zip(cases, answers, library.write(cases)):
                report.compare(case, said(wanted), got)
            compare_trees(library, [(*case[:2], answer) for case, answer in zip(cases, answers)], report)
    report.end(f"{count} patterns")


def run_percents(library, count, seed):
    pick, report = random.Random(seed), Report()
    for start in range(0, count, 20000):
        cases = []
        for _ in range(min(20000, count - start)):
            n = pick.randrange(10 ** pick.randrange(1, 41))
            size = writer.read_percent(n) + pick.choice([0, 0, 0, 1, -1])
            cases.append(Pair([percent_track(max(size, 0) + SIGN * pick.randrange(2))]).case(100))
        answers = [writer.answer(*case) for case in cases]
        for case, wanted, got in zip(cases, answers, library.write(cases)):
            report.compare(case, said(wanted), got)
        compare_trees(library, [(*case[:2], answer) for case, answer in zip(cases, answers)], report)
    report.end(f"{count} percents")


def run_time(program, rounds):
    for path in sorted(glob.glob("examples/*.strip")):
        text = open(path, "rb").read()
        print(path, end=": ", flush=True)
        subprocess.run([program, str(rounds)], input=text * (10240 // len(text)), check=True)


def main():
    args = sys.argv[1:]
    if args == ["--store"]:
        return store_cases()
    found = without_archive(args)
    if found is None:
        sys.exit(__doc__)
    archive, args = found
    with tempfile.TemporaryDirectory() as folder:
        if args[0] == "--time":
            return run_time(compiled(TIMER, archive, folder), int(args[1]))
        library = Library(archive, folder)
        if args == ["--stored"]:
            run_stored(library)
        elif args[0] == "--floats":
            run_floats(library, int(args[1]), int(args[2]))
        elif args[0] == "--percents":
            run_percents(library, int(args[1]), int(args[2]))
        else:
            run_scripts(library, int(args[0]), int(args[1]))


main()
