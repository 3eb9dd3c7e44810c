#!/usr/bin/env python3
"""Renaming, by document 02 (m) and 01's text rules, through an archive. Run it from the repository's root.

  renaming.py N SEED --lib A.a   N generated scripts that reading accepts. In each the target names of tween, spring, keyframes, path and
                                 color and the strings of label, path, draw and morph are made others, and the blanks too: (m)'s premise is
                                 met, and checking must give both scripts the same answer, under list 1 and under list 2. Then one other
                                 change of each script: the premise must not be met. Counts how many of these change the answer
"""
import random
import re
import subprocess
import sys
import tempfile
from collections import Counter

import back_writer as writer
from archive import compiled, without_archive
from back_scripts import Script

ANSWERER = r"""
#include <stdint.h>
#include <stdio.h>
#include <string.h>
uint64_t strip_read(const uint8_t *, size_t, uint16_t *, size_t, uint8_t *, size_t);
uint64_t strip_check(const uint8_t *, size_t, const uint8_t *, size_t, uint32_t);
static uint16_t scratch[16384];
static uint8_t text[32768], sheet[49152];
static char line[131072];
static int digit(char c) { return c <= '9' ? c - '0' : (c & 7) + 9; }
static void say(uint64_t a) {
    if (a >> 56) printf("refuse %u at %u", (unsigned)(a >> 56), (unsigned)a);
    else printf("accept");
}
int main(void) {
    while (fgets(line, sizeof line, stdin)) {
        size_t n = 0;
        for (; line[2 * n] > ' '; n++) text[n] = digit(line[2 * n]) * 16 + digit(line[2 * n + 1]);
        uint64_t a = strip_read(text, n, scratch, 16384, sheet, sizeof sheet);
        size_t length = a >> 56 ? 0 : a & 0xFFFFFF;
        for (size_t i = 0; i < length; i++) printf("%02X", sheet[i]);
        for (uint32_t list = 1; list <= 2; list++) {
            printf("\t");
            say(a >> 56 ? a : strip_check(text, n, sheet, length, list));
        }
        puts("");
    }
}
"""

# ---- 02 (m)'s premise

# The nodes and the fields of ast.rs whose names or strings may differ.
FREE_NAMES = [("tween", "target"), ("spring", "target"), ("keyframes", "target"), ("path", "target"), ("color", "target")]
FREE_STRINGS = [("label", "text"), ("path", "svg"), ("draw", "svg"), ("morph", "from"), ("morph", "to")]
# Rust Reference, keywords, edition 2021, strict and reserved, and `_`: no names.
KEYWORDS = set(
    "_ as break const continue crate else enum extern false fn for if impl in let loop match mod move mut pub ref return self Self static "
    "struct super trait true type unsafe use where while async await dyn abstract become box do final macro override priv typeof unsized "
    "virtual yield try".split()
)
TOKEN = re.compile(
    r"[ \t\r\n]*(?:(?P<name>[A-Za-z_][A-Za-z0-9_]*)|(?P<number>[0-9]+(?:\.[0-9]+)?s?)|(?P<string>\"[ !#-\[\]-~]*\")"
    r"|(?P<mark>=>|::|\.\.|[:;,=>.+\-%()\[\]{}]))"
)


def tokens(text):
    """01's tokens, `=>`, `::` and `..` one each: a kind, the bytes and the start."""
    text, at, found = text.decode().rstrip(" \t\r\n"), 0, []
    while at < len(text):
        match = TOKEN.match(text, at)
        kind = match.lastgroup
        word = match.group(kind)
        found.append(("keyword" if kind == "name" and word in KEYWORDS else kind, word, match.end() - len(word)))
        at = match.end()
    return found


def premise(first, second, free):
    """Whether the tokens of two texts agree in order and kind and differ only in those at the free starts of the first."""
    ts, us = tokens(first), tokens(second)
    return len(ts) == len(us) and all(t[0] == u[0] and (t[1] == u[1] or t[2] in free) for t, u in zip(ts, us))


class Spans(writer.Decoder):
    """A sheet whose names and strings are their starts."""

    def span(self):
        start, _ = self.number(2), self.number(2)
        return start


def free_starts(text, sheet):
    """The starts of the tokens that (m) frees, by 01's sheet: a string's token begins with its quote."""
    free = {}
    for kind, fields in writer.preorder(Spans(text, sheet).sort("nodes")):
        free.update({fields[name]: (kind, name) for name in fields if (kind, name) in FREE_NAMES})
        free.update({fields[name] - 1: (kind, name) for name in fields if (kind, name) in FREE_STRINGS})
    return free


# ---- scripts, some of which checking refuses


FREE_SORTS = ("target", "string")


class Marked(Script):
    """A script with what stands for what among its tokens: targets, strings, colours, easings, presets; and where its nodes begin."""

    def __init__(self, pick):
        super().__init__(pick)
        self.sorts, self.sort, self.begins, self.last_key = [], None, [], []

    def put(self, *words):
        self.parts += words
        self.sorts += [self.sort] * len(words)

    def as_sort(self, sort, form):
        self.sort = sort
        form()
        self.sort = None

    def name(self):
        self.as_sort("target", super().name)

    def string(self):
        self.as_sort("string", super().string)

    def color(self):
        odd = ["tomato", "RebeccaPurple", "redd", "", "#12", "#12345g", "transparent"]
        self.as_sort("color", lambda: self.put(f'"{self.pick.choice(odd)}"') if self.chance(12) else super(Marked, self).color())

    def easing(self):
        if self.chance(4):
            return self.as_sort("easing", lambda: self.put(self.pick.choice(["ease", "Linear", "linear_", "bounce", "path"])))
        first = len(self.parts)
        super().easing()
        if len(self.parts) == first + 1 or self.parts[first : first + 2] == ["Easing", "::"]:
            self.sorts[-1] = "easing"

    def duration(self):
        if self.chance(2):
            return self.put("-", "1")
        super().duration()

    def count(self):
        if self.chance(4):
            return self.put("0")
        super().count()

    def key(self, seen):
        first = len(self.parts)
        if seen and self.chance(3):
            self.put(*self.last_key)
        else:
            super().key(seen)
        self.last_key = self.parts[first:]

    def change(self):
        if not self.chance(4):
            return super().change()
        self.name()
        self.put(":")
        self.value(1)
        self.put("=>")
        self.value(2)

    def node(self, depth=0):
        if depth == 0:
            self.begins.append(len(self.parts))
        first = len(self.parts)
        super().node(depth)
        for i in range(first + 1, len(self.parts)):
            if self.parts[i - 1] == "preset" and self.sorts[i - 1] is None and self.sorts[i] is None and self.parts[i] != ":":
                self.sorts[i] = "preset"
                if self.chance(6):
                    self.parts[i] = self.pick.choice(["fadein", "Fade_in", "red", "linear"])


def generated(pick):
    script = Marked(pick)
    for _ in range(pick.choice([1, 1, 2, 2, 3, 4, 6, 9]) if pick.randrange(100) else pick.randrange(20, 120)):
        script.node()
    return script


def laid_out(pick, parts):
    """The text of some tokens, with blanks of its own."""
    script = Script(pick)
    script.parts = parts
    return script.text()


# ---- changes

NAMES = [*Script.NAMES, *writer.EASINGS, *writer.PRESETS, *writer.COLORS, "target", "n" * 60, "a" * 300]
STRINGS = ["", " ", "red", "redd", "#abc", "#zz", "M0 0 L1 1", "fade_in", "tween a: 0 => 1;", "// no comment", "x" * 200]


def another(word, form):
    """A word of a form, and not this one."""
    while True:
        new = form()
        if new != word:
            return new


def other_name(pick, word):
    return another(word, lambda: pick.choice(NAMES) if pick.randrange(2) else "v" + str(pick.randrange(10**6)))


def other_string(pick, word):
    return another(word, lambda: '"' + (pick.choice(STRINGS) if pick.randrange(2) else str(pick.randrange(10**9))) + '"')


def renamed(pick, script):
    """The parts with some of the free ones made others, one at least; None where there is none."""
    at = [i for i, sort in enumerate(script.sorts) if sort in FREE_SORTS]
    if not at:
        return None
    share, parts = pick.choice([20, 50, 100]), list(script.parts)
    chosen = [i for i in at if pick.randrange(100) < share] or [pick.choice(at)]
    for i in chosen:
        parts[i] = (other_name if script.sorts[i] == "target" else other_string)(pick, parts[i])
    return parts


def change_one(sort, form):
    """A change of one token of a sort."""

    def change(pick, script):
        at = [i for i, s in enumerate(script.sorts) if s == sort]
        if not at:
            return None
        i = pick.choice(at)
        return script.parts[:i] + [another(script.parts[i], lambda: form(pick))] + script.parts[i + 1 :]

    return change


def change_number(form):
    """A change of one number."""

    def change(pick, script):
        at = [i for i, part in enumerate(script.parts) if part[0].isdigit()]
        if not at:
            return None
        i = pick.choice(at)
        new = form(pick, script.parts[i])
        return new and script.parts[:i] + [new] + script.parts[i + 1 :]

    return change


def other_number(pick, word):
    return another(word, lambda: pick.choice([*Script.NUMBERS[:14], str(pick.randrange(200))]))


def with_point(pick, word):
    """The same number, written with a point."""
    return word + ".0" if word.isdigit() else None


def token_more(pick, script):
    """A `;` in front of a node, or at the end."""
    i = pick.choice([*script.begins, len(script.parts)])
    return script.parts[:i] + [";"] + script.parts[i:]


def node_more(pick, script):
    i = pick.choice([*script.begins, len(script.parts)])
    return script.parts[:i] + ["at", "1", ";"] + script.parts[i:]


def token_less(pick, script):
    """Without one of its `;` and `,`."""
    at = [i for i, part in enumerate(script.parts) if part in (";", ",")]
    i = pick.choice(at) if at else None
    return None if i is None else script.parts[:i] + script.parts[i + 1 :]


def order(pick, script):
    """Two nodes that stand one behind the other change their places; None where that is a renaming, as of two labels."""
    ends = [*script.begins[1:], len(script.parts)]
    if len(script.begins) < 2:
        return None
    k = pick.randrange(len(script.begins) - 1)
    a, b, c = script.begins[k], ends[k], ends[k + 1]
    swapped = lambda parts: parts[:a] + parts[b:c] + parts[a:b] + parts[c:]
    blanked = [sort if sort in FREE_SORTS else part for part, sort in zip(script.parts, script.sorts)]
    return None if swapped(blanked) == blanked else swapped(script.parts)


def parted(pick, script):
    """A mark of two characters with a blank in it."""
    at = [i for i, part in enumerate(script.parts) if part in ("=>", "::", "..")]
    if not at:
        return None
    i = pick.choice(at)
    return script.parts[:i] + [" ".join(script.parts[i])] + script.parts[i + 1 :]


CHANGES = {
    "a colour's string": change_one("color", lambda pick: '"' + pick.choice([*writer.COLORS, "tomato", "redd", "#abc", "#abcd1", ""]) + '"'),
    "a preset": change_one("preset", lambda pick: pick.choice([*writer.PRESETS, "fadein", "path"])),
    "an easing": change_one("easing", lambda pick: pick.choice([*writer.EASINGS, "ease", "path"])),
    "a number": change_number(other_number),
    "a number with a point": change_number(with_point),
    "a token more": token_more,
    "a token less": token_less,
    "a node more": node_more,
    "the order": order,
    "a keyword for a target": change_one("target", lambda pick: pick.choice(sorted(KEYWORDS))),
    "a mark parted": parted,
}


# ---- the run


def answers(program, texts):
    """Of each text its sheet, None where reading refuses, and the answers under the two lists."""
    done = subprocess.run([program], input="".join(text.hex() + "\n" for text in texts), capture_output=True, text=True, check=True)
    for line in done.stdout.split("\n")[:-1]:
        sheet, first, second = line.split("\t")
        yield bytes.fromhex(sheet) if sheet else None, (first, second)


def made(pick):
    """A script with a free token, its text, and its text renamed: both short enough."""
    while True:
        script = generated(pick)
        parts = renamed(pick, script)
        if parts:
            text, again = laid_out(pick, script.parts), laid_out(pick, parts)
            if max(len(text), len(again)) <= writer.TEXT_LIMIT:
                return script, text, again


class Report:
    """What was met how often, and what differs."""

    def __init__(self):
        self.wrong, self.counts = 0, Counter()

    def differ(self, what, *shown):
        self.wrong += 1
        if self.wrong <= 10:
            print(what, *(str(part)[:600] for part in shown), sep="\n    ")


def compare(report, cases, first, second):
    """Renamed scripts: the same answers. Gives the scripts with their free starts."""
    for (script, text, again), (sheet, said), (other, also) in zip(cases, first, second, strict=True):
        if sheet is None or other is None:
            report.differ("READING REFUSES", text, again, said, also)
            continue
        free = free_starts(text, sheet)
        at = {start for (_, _, start), sort in zip(tokens(text), script.sorts, strict=True) if sort in FREE_SORTS}
        if set(free) != at:
            report.differ("OTHER FREE TOKENS", text, sorted(free), sorted(at))
        if not premise(text, again, free) or not premise(again, text, free_starts(again, other)):
            report.differ("PREMISE NOT MET", text, again)
        if said != also:
            report.differ("ANSWERS DIFFER", text, again, said, also)
        for k in range(2):
            report.counts["renamed, list %d: %s" % (k + 1, said[k].split(" at ")[0])] += 1
        report.counts["renamed, the lists' answers differ"] += said[0] != said[1]
        words = [(t, u) for t, u in zip(tokens(text), tokens(again)) if t[1] != u[1]]
        report.counts.update("renamed, " + " ".join(free[t[2]]) for t, _ in words)
        yield script, text, free, said


def run(program, count, seed):
    pick, report, left = random.Random(seed), Report(), count
    changes = Counter()
    while left:
        cases = [made(pick) for _ in range(min(1000, left))]
        left -= len(cases)
        first = answers(program, [text for _, text, _ in cases])
        second = answers(program, [again for _, _, again in cases])
        others = []
        for script, text, free, said in compare(report, cases, first, second):
            names = list(CHANGES)
            pick.shuffle(names)
            name, parts = next((name, parts) for name in names if (parts := CHANGES[name](pick, script)))
            others.append((name, text, laid_out(pick, parts), free, said))
        others = [case for case in others if len(case[2]) <= writer.TEXT_LIMIT]
        for (name, text, again, free, said), (sheet, also) in zip(others, answers(program, [case[2] for case in others]), strict=True):
            if premise(text, again, free):
                report.differ("PREMISE MET", name, text, again)
            kind = "refused by reading" if sheet is None else "another answer" if said != also else "the same answer"
            changes[name, kind] += 1
    for key in sorted(report.counts):
        print(key, report.counts[key])
    for name in CHANGES:
        print(name, {kind: changes[name, kind] for kind in ("the same answer", "another answer", "refused by reading")})
    print("other changes", {kind: sum(n for (_, k), n in changes.items() if k == kind)
                            for kind in ("the same answer", "another answer", "refused by reading")})
    print(f"{count} renamed, {sum(changes.values())} changed otherwise; {report.wrong} differ")
    sys.exit(bool(report.wrong))


def main():
    found = without_archive(sys.argv[1:])
    if found is None or len(found[1]) != 2:
        sys.exit(__doc__)
    archive, (count, seed) = found
    with tempfile.TemporaryDirectory() as folder:
        run(compiled(ANSWERER, archive, folder), int(count), int(seed))


main()
