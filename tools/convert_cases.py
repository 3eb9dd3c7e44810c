#!/usr/bin/env python3
"""Sheets with noise and their converted ones, by the words of document 02 (h). The form of a sheet is tools/back_writer.py's, which goes
by document 01. Run it from the repository's root.

  convert_cases.py --store            make the stored cases `convert`: a line is a text and a sheet, both in hexadecimal; its answer
                                      `accept` or `refuse R at P`, a tab, and the sheet that is left
  convert_cases.py --stored --lib A.a run these through strip_convert of an archive, and say where the answers differ
  convert_cases.py N SEED --lib A.a   N generated scripts whose waveforms get kinds at will, and damaged ones, foreign bytes and texts that
                                      are too long: whether the answers and the sheets are right, whether converting again changes a byte,
                                      and whether strip_check answers to the converted sheet, under the Rust's list, as validate.rs does
"""
import random
import subprocess
import sys
import tempfile
from collections import Counter

import back_writer as writer
from archive import compiled, without_archive
from back_scripts import damaged, generated
from stored import store, stored_answers, stored_cases

TRIANGLE, NOISE = 3, 4


def waves(text, sheet):
    """The places of the waveforms' kinds in a sheet; NoSheet if it is none."""
    return [at for at, sort in writer.decode(text, sheet)[1] if sort == "waveform"]


def converted(text, sheet):
    """What the converter answers, and the sheet that it leaves."""
    if len(text) > writer.TEXT_LIMIT:
        return "refuse 1 at 0", sheet
    foreign = next((i for i, b in enumerate(text) if b not in b"\t\n\r" and not 32 <= b <= 126), None)
    if foreign is not None:
        return f"refuse 2 at {foreign}", sheet
    try:
        places = waves(text, sheet)
    except writer.NoSheet:
        return "refuse 20 at 0", sheet
    left = bytearray(sheet)
    for at in places:
        if left[at] == NOISE:
            left[at] = TRIANGLE
    return "accept", bytes(left)


def said(answer):
    return f"{answer[0]}\t{answer[1].hex()}"


def asked(case):
    return f"{case[0].hex().upper()}\t{case[1].hex().upper()}\n"


# ---- the stored cases

TEXT = b"tween box: 0 => 1 duration: 1; "
F32 = {"1": "3F800000", "-1": "BF800000", "nan": "7FC00000"}
NONE = "00"
# One node of each kind but a waveform, as its bytes behind the start, the nodes in it left off.
KINDS = {
    "00": "00060003" + "00" + F32["1"] + "00" + F32["1"] + F32["1"] + NONE * 6 + "00",  # tween
    "01": "00060003" + "00" + F32["1"] + "00" + F32["1"] + NONE * 8,  # spring
    "02": "00060003" + "0002" + ("00" + F32["1"] + "00" + F32["1"] + NONE) * 2 + NONE,  # keyframes
    "07": "00060003" + "00060003" + F32["1"] + NONE * 4,  # path
    "08": "00060003" + "00060003" + "00000004" + F32["1"] + NONE,  # morph, of 4 samples
    "09": "00060003" + F32["1"] + NONE,  # draw
    "0A": "00060003" * 3 + F32["1"] + "00" + NONE,  # color
    "0C": "00060003" + NONE * 2,  # preset
    "0D": "00040004",  # label, of the text's bytes 4 to 7
    "0E": "04040404" + "00",  # at: the byte behind the start is 04
}
CONTAINERS = {"03": "", "04": "", "05": "01", "06": "01" + "00" + "00000004" * 2 + "04" + "01" + "04040404"}  # stagger: a grid, its origin 4


def wave(kind, fields=NONE * 7, start="0000"):
    return "0B" + start + f"{kind:02X}" + fields


def leaf(kind, start="0000"):
    return kind + start + KINDS[kind]


def box(kind, *nodes, start="0000"):
    return kind + start + CONTAINERS[kind] + f"{sum(n for n, _ in nodes):04X}" + "".join(bytes_ for _, bytes_ in nodes)


def one(record):
    return 1, record


def sheet(*records):
    return bytes.fromhex(f"{len(records):04X}" + "".join(records))


def nested(depth, record):
    for i in range(depth):
        record = box(list(CONTAINERS)[i % 4], one(record))
    return record


NOISE_WAVE = wave(NOISE)
PRESENT = "01" + F32["1"]
FULL = PRESENT * 4 + "01" + "04040404" + PRESENT * 2  # every field of a waveform, the seed all 04


def sheets():
    # noise alone, first, last, twice, with every field
    yield sheet(NOISE_WAVE)
    yield sheet(NOISE_WAVE, leaf("0E"))
    yield sheet(leaf("00"), NOISE_WAVE)
    yield sheet(NOISE_WAVE, NOISE_WAVE)
    yield sheet(NOISE_WAVE, leaf("0D"), wave(NOISE, FULL), wave(0), NOISE_WAVE)
    yield sheet(wave(NOISE, FULL))
    # each kind of waveform
    for kind in range(5):
        yield sheet(wave(kind), wave(kind, FULL))
    yield sheet(*(wave(kind) for kind in range(5)))
    # behind and in front of each kind of node
    for kind in KINDS:
        yield sheet(leaf(kind), NOISE_WAVE, leaf(kind))
    # in each container, at each depth
    for kind in CONTAINERS:
        yield sheet(box(kind, one(NOISE_WAVE), one(leaf("0E")), one(NOISE_WAVE)), NOISE_WAVE)
    for depth in (2, 5, 16):
        yield sheet(nested(depth, NOISE_WAVE), wave(1))
    # beside a frequency that checking refuses, and behind a node that it refuses
    yield sheet(wave(NOISE, "01" + F32["-1"] + NONE * 6))
    yield sheet(wave(NOISE, "01" + F32["nan"] + NONE * 6), NOISE_WAVE)
    yield sheet("00" + "0000" + KINDS["00"].replace(F32["1"] + NONE * 6, F32["-1"] + NONE * 6), NOISE_WAVE)
    # 04 elsewhere: a count, a start, numbers, `parallel`, and what looks like a waveform's record inside a node
    yield sheet(*[leaf("0E")] * 4)
    yield sheet(box("04", one(leaf("0E"))), box("06"))
    yield sheet(wave(0, FULL, start="0004"), wave(NOISE, FULL, start="0004"))
    yield sheet("0E" + "0000" + "0B000004" + "00", "0E" + "0000" + "040B0000" + "00", NOISE_WAVE)
    yield sheet(wave(2, NONE * 4 + "01" + "0B000004" + "01" + "0B000004" + NONE), NOISE_WAVE)
    yield sheet("00" + "0000" + "00060003" + "010004" + "0B000004" * 4 + "00" + "04040404" + F32["1"] + NONE * 6 + "00")
    yield sheet()


def bad_sheets():
    """Noise in bytes that are no sheet: they stay."""
    good = sheet(NOISE_WAVE, leaf("0E"))
    yield b""
    yield b"\0"
    yield good[:-1]
    yield good + b"\0"
    yield sheet(NOISE_WAVE, wave(5))  # no kind of waveform
    yield sheet(NOISE_WAVE, "0F" + "0000" + "04")  # no kind of node
    yield sheet(NOISE_WAVE, wave(NOISE, start=f"{len(TEXT):04X}"))  # a start at the text's end
    yield sheet(NOISE_WAVE, "0D" + "0000" + f"{len(TEXT):04X}" + "0001")  # a string past it
    yield sheet(NOISE_WAVE, "0E" + "0000" + F32["1"] + "02")  # no truth value
    yield sheet(nested(17, NOISE_WAVE))
    yield b"\0\1" + sheet(NOISE_WAVE, NOISE_WAVE)[2:]  # one node more than the head says
    yield b"\0\3" + sheet(NOISE_WAVE, NOISE_WAVE)[2:]


def stored():
    cases = [(TEXT, made) for made in sheets()]
    cases += [(text, left) for text, left in ((text, converted(text, made)[1]) for text, made in cases[:4])]
    cases += [(TEXT, made) for made in bad_sheets()]
    cases += [(b"", sheet()), (b"", sheet(NOISE_WAVE)), (b" ", sheet(NOISE_WAVE))]
    # a foreign byte, first, last, and before bytes that are no sheet
    cases += [(b"\x00at 0", sheet(NOISE_WAVE)), (b"at 0\x7f", sheet(NOISE_WAVE)), (b"at\x80 0\x80", sheet(wave(5)))]
    # a span whose first byte is 04, right behind the start: of a label and of a preset
    long_text = TEXT * 40
    cases += [(long_text, sheet("0D" + "0000" + "04000004", "0C" + "0404" + "04040004" + NONE * 2, NOISE_WAVE))]
    # a text that is too long, and one of the longest size
    return cases + [(b" " * size, sheet(NOISE_WAVE)) for size in (16385, 16384)]


def store_cases():
    made = stored()
    store("convert", [asked(case).rstrip("\n") for case in made], [said(converted(*case)) for case in made])
    print(len(made), "cases", dict(Counter(converted(*case)[0].split(" at ")[0] for case in made)))


# ---- through an archive

ANSWERER = r"""
#include <stdint.h>
#include <stdio.h>
#include <string.h>
uint64_t strip_read(const uint8_t *, size_t, uint16_t *, size_t, uint8_t *, size_t);
uint64_t strip_check(const uint8_t *, size_t, const uint8_t *, size_t, uint32_t);
uint64_t strip_convert(const uint8_t *, size_t, uint8_t *, size_t);
static uint16_t scratch[64];
static uint8_t text[65536], sheet[131072 + 64], again[131072];
static char line[524288];
static int digit(char c) { return c <= '9' ? c - '0' : (c & 7) + 9; }
static size_t unhex(const char *s, uint8_t *to) {
    size_t n = 0;
    for (; s[2 * n] > ' '; n++) to[n] = digit(s[2 * n]) * 16 + digit(s[2 * n + 1]);
    return n;
}
static void print(uint64_t a) {
    if (a >> 56) printf("refuse %u at %u", (unsigned)(a >> 56), (unsigned)a);
    else printf(a ? "accept with %u" : "accept", (unsigned)a);
}
static void read_text(size_t n) {
    uint64_t a = strip_read(text, n, scratch, 64, sheet, 49152);
    if (a >> 56) print(a);
    else for (size_t i = 0; i < (a & 0xFFFFFF); i++) printf("%02x", sheet[i]);
    puts("");
}
static void convert(size_t n, size_t m) {
    size_t past = 1;
    memset(sheet + m, 7, 64);
    uint64_t a = strip_convert(text, n, sheet, m);
    print(a);
    putchar('\t');
    for (size_t i = 0; i < m; i++) printf("%02x", sheet[i]);
    for (size_t i = m; i < m + 64; i++) past &= sheet[i] == 7;
    memcpy(again, sheet, m);
    if (strip_convert(text, n, again, m) != a || memcmp(again, sheet, m)) printf(", twice is not once");
    if (!past) printf(", written past the sheet");
    putchar('\t');
    print(strip_check(text, n, sheet, m, 1));
    puts("");
}
int main(void) {
    while (fgets(line, sizeof line, stdin)) {
        char *end = line + strcspn(line, "\t\n");
        size_t n = unhex(line, text);
        if (*end == '\n') read_text(n);
        else convert(n, unhex(end + 1, sheet));
    }
}
"""


class Library:
    """An archive's functions, which answer lines."""

    def __init__(self, archive, folder):
        self.program = compiled(ANSWERER, archive, folder)

    def answer(self, lines):
        done = subprocess.run([self.program], input="".join(lines), capture_output=True, text=True, check=True)
        return done.stdout.split("\n")[:-1]

    def read(self, texts):
        """For each text its sheet, or None."""
        answers = self.answer(f"{text.hex()}\n" for text in texts)
        return [None if answer.startswith("refuse") else bytes.fromhex(answer) for answer in answers]


class Report:
    """How often each answer came up, and what differs."""

    def __init__(self):
        self.wrong, self.counts = 0, Counter()

    def compare(self, case, got):
        """The converter's answer and sheet, and what checking says of that sheet."""
        wanted = converted(*case)
        self.counts[wanted[0].split(" at ")[0]] += 1
        self.counts["bytes changed"] += sum(a != b for a, b in zip(case[1], wanted[1], strict=True))
        parts = got.rsplit("\t", 1)
        verdict = wanted[0]
        if verdict == "accept":
            refusal = writer.check(case[0], wanted[1])[0]
            verdict = "accept" if refusal is None else "refuse {} at {}".format(*refusal)
        if parts != [said(wanted), verdict]:
            self.wrong += 1
            if self.wrong <= 10:
                shown = repr(case[0]), case[1].hex(), f"wanted {said(wanted)}\t{verdict}", f"got    {got}"
                print("ANSWERS DIFFER", *(part[:600] for part in shown), sep="\n    ")

    def end(self, what):
        print(what, {key: self.counts[key] for key in sorted(self.counts)}, f"{self.wrong} differ", sep="; ")
        sys.exit(bool(self.wrong))


def with_kinds(pick, text, made):
    """The sheet, its waveforms of any kind, noise half of the time."""
    made = bytearray(made)
    for at in waves(text, made):
        made[at] = NOISE if pick.randrange(2) else pick.randrange(5)
    return bytes(made)


def variants(pick, text, made):
    """Sheets for a text, and texts for a sheet."""
    made = with_kinds(pick, text, made)
    yield text, made
    if pick.randrange(2):
        yield text, damaged(pick, text, made)
    kind = pick.randrange(16)
    at = pick.randrange(len(text) + 1)
    if kind == 0:
        yield text[:at] + bytes([pick.choice([0, 1, 11, 31, 127, 128, 255])]) + text[at:], made
    elif kind == 1:
        yield text + b" " * (16385 - len(text)), made
    elif kind == 2:
        yield text, made + b"\0"
    elif kind == 3:
        yield text, made[: pick.randrange(len(made))]
    elif kind == 4:
        yield text[:at], made


def run(library, count, seed):
    pick, report, done = random.Random(seed), Report(), 0
    while done < count:
        texts = [generated(pick).replace(b"noise", b"triangle") for _ in range(min(1000, count - done))]
        texts = [text for text in texts if len(text) <= writer.TEXT_LIMIT]
        cases = []
        for text, made in zip(texts, library.read(texts), strict=True):
            if made is not None:
                done += 1
                cases += variants(pick, text, made)
        for case, got in zip(cases, library.answer(map(asked, cases)), strict=True):
            report.compare(case, got)
    report.end(f"{done} generated scripts")


def run_stored(library):
    report = Report()
    cases = [tuple(map(bytes.fromhex, line.split("\t"))) for line in stored_cases("convert")]
    for case, wanted, got in zip(cases, stored_answers("convert"), library.answer(map(asked, cases)), strict=True):
        assert wanted == said(converted(*case))
        report.compare(case, got)
    report.end(f"{len(cases)} stored cases")


def main():
    args = sys.argv[1:]
    if args == ["--store"]:
        return store_cases()
    found = without_archive(args)
    if found is None:
        sys.exit(__doc__)
    archive, args = found
    with tempfile.TemporaryDirectory() as folder:
        library = Library(archive, folder)
        if args == ["--stored"]:
            run_stored(library)
        else:
            run(library, int(args[0]), int(args[1]))


if __name__ == "__main__":
    main()
