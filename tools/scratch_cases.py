#!/usr/bin/env python3
"""Reading with scratches of several lengths, by 02 (j): "Reading must give the same answers, places and sheets from a scratch of 64
words", and "16 now means fewer than 64 words". Run from the repository's root.

  scratch_cases.py                      store the cases of the kind `scratch` and their answers (tools/stored.py)
  scratch_cases.py CASES ANSWERS        write both to two files instead
  scratch_cases.py --lib A.a N SEED     the longer run: read N texts of delimiters, strings and words from the archive, each with
                                        scratches of 63, 64, 65 and 16,384 words and of two other lengths

A case is the number of words, in two bytes, and the text, both in hexadecimal, with a tab between. The scratch is lent with every word 7,
a sheet of 64 bytes with every byte 9. An answer is reading's; then what the scratch is afterwards: all `zero`, `kept` as it was lent, or
`mixed`; then the same of the sheet behind its length, which of a refusal is 0; with tabs between."""
import random
import subprocess
import sys
import tempfile

from archive import compiled, without_archive

WORDS = 64
OPENERS, CLOSERS = "([{", ")]}"
LENGTHS = (63, 64, 65, 16384)


def closed(openers):
    return openers + "".join(CLOSERS[OPENERS.index(b)] for b in reversed(openers))


# a text, and what reading answers with a long enough scratch: 01's table of refusals, and its sheet for the accepted ones
STEPS = "tween p: 0 => 1 duration: 1 easing: steps(3"
TEXTS = [
    # accepted: length and count of records
    ("", "accept 2 0"),
    ("at 0.5;", "accept 10 1"),
    ("sequence {at 1; at 2;}", "accept 23 3"),
    ("sequence {" * 11 + "}" * 11, "accept 57 11"),
    # 64 openers at once; behind the rules for the text a name is missing, or tokens are left inside a delimiter
    (closed("(" * 64), "refuse 6 at 0"),
    (closed("([{" * 21 + "["), "refuse 6 at 0"),
    (STEPS + closed("(" * 63) + ")", "refuse 13 at 43"),
    # 65
    (closed("(" * 65), "refuse 5 at 64"),
    (STEPS + closed("(" * 64) + ")", "refuse 5 at 106"),
    # 1 to 4, and 4 with all 64 words in use
    ("at 0.5;".ljust(16385), "refuse 1 at 0"),
    ("at 1x", "refuse 2 at 3"),
    ('at 1; "', "refuse 2 at 6"),
    ("at " + 41 * "1", "refuse 3 at 3"),
    ("at 1)", "refuse 4 at 4"),
    ("sequence {", "refuse 4 at 10"),
    ("(" * 64 + "]", "refuse 4 at 64"),
    ("(" * 64, "refuse 4 at 64"),
    # 14, which comes last
    ("at 1;" * 8, "refuse 14 at 0"),
]


def answer(words, text, read):
    """The line for a text which reading answers so with a long enough scratch."""
    if len(text) > 16384:
        return "refuse 1 at 0\tkept\tkept"
    if words < WORDS:
        return "refuse 16 at 0\tkept\tkept"
    return f"{read}\tzero\tzero"


def stored():
    cases = [(words, text, read) for words in LENGTHS for text, read in TEXTS]
    return [f"{words:04X}\t{text.encode().hex().upper()}" for words, text, _ in cases], [answer(*case) for case in cases]


# ---- the longer run

ANSWERER = r"""
#include <stdint.h>
#include <stdio.h>
#include <string.h>
uint64_t strip_read(const uint8_t *, size_t, uint16_t *, size_t, uint8_t *, size_t);
static uint16_t scratch[65536 + 64];
static uint8_t text[65536], sheet[64 + 64];
static char line[262144];
static int digit(char c) { return c <= '9' ? c - '0' : (c & 7) + 9; }
static const char *state(size_t zero, size_t kept, size_t all) { return zero == all ? "zero" : kept == all ? "kept" : "mixed"; }
int main(void) {
    while (fgets(line, sizeof line, stdin)) {
        size_t words = 0, n = 0, zero = 0, kept = 0;
        for (size_t i = 0; i < 4; i++) words = words * 16 + digit(line[i]);
        for (char *s = line + 5; s[2 * n] > ' '; n++) text[n] = digit(s[2 * n]) * 16 + digit(s[2 * n + 1]);
        for (size_t i = 0; i < words + 64; i++) scratch[i] = 7;
        memset(sheet, 9, sizeof sheet);
        uint64_t a = strip_read(text, n, scratch, words, sheet, 64);
        size_t used = a >> 56 ? 0 : a & 0xFFFFFF;
        if (a >> 56) printf("refuse %u at %u", (unsigned)(a >> 56), (unsigned)a);
        else printf("accept %u %u", (unsigned)used, (unsigned)(a >> 24 & 0xFFFF));
        for (size_t i = 0; i < words; i++) { zero += !scratch[i]; kept += scratch[i] == 7; }
        printf("\t%s", state(zero, kept, words));
        zero = kept = 0;
        for (size_t i = used; i < 64; i++) { zero += !sheet[i]; kept += sheet[i] == 9; }
        printf("\t%s", state(zero, kept, 64 - used));
        for (size_t i = 0; i < 64; i++) if (scratch[words + i] != 7 || sheet[64 + i] != 9) { printf("\tpast its end"); break; }
        puts("");
    }
}
"""


def by_delimiters(text):
    """4 or 5 with its place by 01's rules for delimiters, of a text whose strings are all closed; None if they fit."""
    awaited, quoted = [], False
    for place, b in enumerate(text):
        quoted ^= b == '"'
        if quoted or b not in OPENERS + CLOSERS:
            continue
        if b in CLOSERS and (not awaited or awaited.pop() != b):
            return f"refuse 4 at {place}"
        if b in OPENERS:
            if len(awaited) == 64:
                return f"refuse 5 at {place}"
            awaited.append(CLOSERS[OPENERS.index(b)])
    return f"refuse 4 at {len(text)}" if awaited else None


def drawn(pick):
    """A text: delimiters that fit or nearly, up to 70 deep, with words, numbers and strings among them; or a script."""
    if pick.random() < 0.2:
        return pick.choice(TEXTS)[0]
    text, awaited, aim = pick.choice(["", "at 1;", STEPS]), [], pick.choice([3, 20, 62, 63, 64, 64, 65, 70])
    rising = True
    while rising or awaited:
        text += pick.choice(["", "", "", " ", "at ", ", ", "x ", "1 ", '"(" ', '"]}" ', "\n"])
        if rising and pick.random() < 0.8:
            opener = pick.choice(OPENERS)
            awaited.append(CLOSERS[OPENERS.index(opener)])
            text += opener
            rising = len(awaited) < aim
        elif awaited:
            text += awaited.pop()
    if pick.random() < 0.3:
        at = pick.randrange(len(text) + 1)
        text = text[:at] + pick.choice(OPENERS + CLOSERS) + text[at + pick.randrange(2) :]
    return text if text.count('"') % 2 == 0 else text + '"'


def longer(archive, count, seed):
    pick, cases = random.Random(seed), []
    for _ in range(count):
        text = drawn(pick)
        for words in (*LENGTHS, pick.randrange(64, 1024), pick.randrange(1, 65536)):
            cases.append((words, text))
    with tempfile.TemporaryDirectory() as folder:
        lines = "".join(f"{words:04X}\t{text.encode().hex().upper()}\n" for words, text in cases)
        program = compiled(ANSWERER, archive, folder)
        answers = subprocess.run([program], input=lines, capture_output=True, text=True, check=True).stdout.splitlines()
    assert len(answers) == len(cases)
    bad, seen = 0, {}
    for i in range(0, len(cases), 6):
        read = answers[i + 1].split("\t")[0]
        number = int(read.split()[1]) if read.startswith("refuse") else 0
        seen[number] = seen.get(number, 0) + 1
        wanted = by_delimiters(cases[i][1])
        fits = number in (1, 2, 3) or (read == wanted if wanted else number not in (4, 5))
        wrong = [c for c, a in zip(cases[i : i + 6], answers[i : i + 6]) if a != answer(*c, read)]
        if wrong or not fits:
            bad += 1
            print(f"{cases[i][1]!r}: {read}, by its delimiters {wanted}; other with {[words for words, _ in wrong]} words")
    told = ", ".join(f"{n} {'accepted' if number == 0 else f'refused with {number}'}" for number, n in sorted(seen.items()))
    print(f"{count} texts (seed {seed}), {len(cases)} calls: {told}; {bad or 'none'} wrong")
    return bad > 0


def main():
    if archive := without_archive(sys.argv[1:]):
        return longer(archive[0], *map(int, archive[1]))
    cases, answers = stored()
    if sys.argv[1:]:
        for path, lines in zip(sys.argv[1:], (cases, answers), strict=True):
            open(path, "w").writelines(line + "\n" for line in lines)
    else:
        import stored as place

        place.store("scratch", cases, answers)


if __name__ == "__main__":
    sys.exit(main())
