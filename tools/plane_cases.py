#!/usr/bin/env python3
"""Sheets and their planed forms, by the words of document 02 (k). The form of a sheet is tools/back_writer.py's, which goes by document 01.
Run it from the repository's root.

  plane_cases.py --store              write the stored cases of the kind `plane`: `00` and a sheet to be planed or `01` and bytes to be
                                      turned back, with their text between and the output's length in two bytes behind, in hexadecimal
                                      with tabs between. An answer is `accept LENGTH` or `refuse R at P`, and the output afterwards, which
                                      is lent full of 07
  plane_cases.py --write C A          write these cases and their answers to two files
  plane_cases.py --stored --lib A.a   run them through strip_plane and strip_unplane of an archive, and say where the answers differ
  plane_cases.py N SEED --lib A.a     N sheets of generated scripts, and their planed forms, good, damaged, cut, lengthened, with short and
                                      long outputs and bad texts: whether answers and outputs are right, and whether what one operation
                                      accepts the other takes back to the same bytes
  plane_cases.py --time --lib A.a     the time of both, and of checking, for a track of 2,497 frames and for the scripts of examples/,
                                      each repeated to 11 KB
  plane_cases.py --pack --lib A.a     how many bytes `zstd -3` and `gzip -6` make of those sheets, and of their planed forms
"""
import random
import subprocess
import sys
import tempfile
from collections import Counter
from pathlib import Path

import back_writer as writer
from archive import CLOCK, compiled, without_archive
from back_scripts import damaged, generated, odd_float
from back_writer import NoSheet

KIND = "plane"
LENT = b"\7"


# ---- the words of 02 (k)


class Walk(writer.Decoder):
    """Reads a sheet whose frame times and scalar frame values have `width` bytes: 4, or 0 where they are taken out. `taken` has their
    places."""

    def __init__(self, text, sheet, width):
        super().__init__(text, sheet)
        self.width, self.taken = width, []

    def take(self):
        self.taken.append(self.at)
        self.number(self.width)

    def sort(self, sort):
        if sort != "frame":
            return super().sort(sort)
        self.below(2)  # percent or seconds
        self.take()
        if self.below(2) == 0:  # a scalar
            self.take()
        else:
            super().sort("floats")
        return super().sort("easing?")


def walked(text, sheet, width):
    walk = Walk(text, sheet, width)
    walk.sort("nodes")
    return walk


def planed(text, sheet):
    """The planed form of a sheet; NoSheet if it is none."""
    if len(sheet) > writer.SHEET_LIMIT:
        raise NoSheet
    walk = walked(text, sheet, 4)
    if walk.at < len(sheet):
        raise NoSheet
    return rearranged(sheet, walk.taken)


def rearranged(sheet, taken):
    """The remaining bytes in their old order; then the numbers taken as four planes, all first bytes to all fourth."""
    gone = {place for at in taken for place in range(at, at + 4)}
    rest = bytes(byte for place, byte in enumerate(sheet) if place not in gone)
    return rest + b"".join(bytes(sheet[at + k] for at in taken) for k in range(4))


def unplaned(text, data):
    """The sheet that planes to some bytes; NoSheet if there is none."""
    if len(data) > writer.SHEET_LIMIT:
        raise NoSheet
    walk = walked(text, data, 0)
    planes, count = data[walk.at :], len(walk.taken)
    if len(planes) != 4 * count:
        raise NoSheet
    parts, before = [], 0
    for i, at in enumerate(walk.taken):
        parts += [data[before:at], planes[i::count]]
        before = at
    return b"".join(parts) + data[before : walk.at]


def answer(case):
    """What is answered to a case, and the output afterwards."""
    back, text, data, room = case
    out = LENT * room
    if len(text) > writer.TEXT_LIMIT:
        return "refuse 1 at 0", out
    foreign = next((i for i, b in enumerate(text) if b not in b"\t\n\r" and not 32 <= b <= 126), None)
    if foreign is not None:
        return f"refuse 2 at {foreign}", out
    try:
        made = unplaned(text, data) if back else planed(text, data)
    except NoSheet:
        return f"refuse {40 if back else 20} at 0", out
    if back:
        assert planed(text, made) == data  # 40 is for bytes that no sheet planes to
    if room < len(made):
        return "refuse 32 at 0", out
    return f"accept {len(made)}", made + out[len(made) :]


def asked(case):
    back, text, data, room = case
    return f"{back:02X}\t{text.hex().upper()}\t{data.hex().upper()}\t{room:04X}"


def sort(case, answered):
    """Which operation, and how it answers, places and lengths left off."""
    return ("unplane " if case[0] else "plane ") + answered[0].split(" at " if answered[0][0] == "r" else " ")[0]


def said(answered):
    return f"{answered[0]} {answered[1].hex().upper()}"


# ---- the stored cases

TEXT = b"keyframes box { 0%: 0, 1: 1 } at 0 "
ONE, HALF, NAN, INFINITE, MARKED = "3F800000", "3F000000", "7FC00001", "FF800000", "01020304"
NAME = "000A0003"
EASINGS = ["00" + "01" + NAME, "01" + MARKED * 4, "02" + "00000003", "03" + "00000004", "04" + MARKED + "00000005", "05" + MARKED * 2]
LOOPS = ["00", "01" + "00000007", "02", "03", "04" + "00000009"]
AT = "0E" + "0000" + HALF + "00"
NOISE = "0B" + "0001" + "04" + "00" * 7
CONTAINERS = ["03" + "0000", "04" + "0000", "05" + "0000" + "01", "06" + "0000" + "01" + "01" + MARKED * 3 + "01" + MARKED]
# a node of each kind with numbers that stay, the containers left out
OTHERS = [
    "00" + "0000" + NAME + "00" + ONE + "010002" + MARKED * 2 + ONE + "01" + EASINGS[1] + "00" * 5 + "01",
    "01" + "0000" + NAME + "00" + ONE + "00" + ONE + "00" * 4 + "01" + "00" + MARKED + "00" * 3,
    "07" + "0000" + NAME * 2 + ONE + "00" + "0101" + "01" + MARKED * 2 + "01" + LOOPS[1],
    "08" + "0000" + NAME * 2 + "00000010" + ONE + "00",
    "09" + "0000" + NAME + ONE + "01" + EASINGS[2],
    "0A" + "0000" + NAME * 3 + ONE + "02" + "00",
    NOISE,
    "0C" + "0000" + NAME + "01" + MARKED + "00",
    "0D" + "0000" + NAME,
    AT,
]


def scalar(time, value, percent=False, easing=""):
    return ("00" if percent else "01") + time + "00" + value + ("01" + easing if easing else "00")


def array(time, *values, percent=False, easing=""):
    return ("00" if percent else "01") + time + f"01{len(values):04X}" + "".join(values) + ("01" + easing if easing else "00")


def track(*frames, loop="", start="0000"):
    return "02" + start + NAME + f"{len(frames):04X}" + "".join(frames) + ("01" + loop if loop else "00")


def box(container, *nodes):
    return container + f"{len(nodes):04X}" + "".join(nodes)


def nested(depth, *nodes):
    for i in range(depth):
        nodes = (box(CONTAINERS[i % 4], *nodes),)
    return nodes[0]


def sheet(*nodes):
    return bytes.fromhex(f"{len(nodes):04X}" + "".join(nodes))


def numbered(k):
    """A number whose four bytes tell which it is and which they are."""
    return f"{k:02X}{k + 64:02X}{k + 128:02X}{k + 192:02X}"


def without_tracks():
    yield sheet()
    yield sheet(AT)
    yield sheet(*OTHERS)
    for container in CONTAINERS:
        yield sheet(box(container), box(container, *OTHERS), AT)


def with_tracks():
    yield sheet(track())
    yield sheet(track(scalar(ONE, HALF)))
    yield sheet(track(scalar(MARKED, NAN, percent=True), scalar(INFINITE, MARKED)))
    yield sheet(track(*(scalar(numbered(2 * k), numbered(2 * k + 1), k % 2 == 0) for k in range(5))))
    # arrays stay: of none, of one, of two; the times before them do not
    yield sheet(track(array(MARKED)))
    yield sheet(track(array(ONE, HALF), array(HALF, ONE), array(MARKED, MARKED, percent=True)))
    yield sheet(track(scalar(numbered(0), numbered(1)), array(numbered(2), MARKED), array(numbered(3)), array(numbered(4), MARKED, NAN)))
    # easings and loops
    for easing in EASINGS:
        yield sheet(track(scalar(numbered(0), numbered(1), easing=easing), array(numbered(2), HALF, easing=easing)))
    for loop in LOOPS:
        yield sheet(track(scalar(numbered(0), numbered(1)), loop=loop), AT)
    # two tracks, and others around them
    yield sheet(track(scalar(numbered(0), numbered(1)), loop=LOOPS[1]), NOISE, track(array(numbered(2)), scalar(numbered(3), NAN)))
    yield sheet(*OTHERS, track(scalar(numbered(0), numbered(1))), *OTHERS)
    # nested
    inner = track(scalar(numbered(0), numbered(1)), array(numbered(2), HALF))
    outer = track(scalar(numbered(3), numbered(4), True), start="0004")
    for container in CONTAINERS:
        yield sheet(box(container, inner, AT), outer)
        yield sheet(outer, box(container, AT, box(container, inner), track()), inner)
    yield sheet(nested(16, inner), outer)
    # two nodes whose bytes are equal but for the numbers
    yield sheet(track(scalar("00000000", "00000000")), track(scalar("FFFFFFFF", "FFFFFFFF")))
    # numbers that look like frames, like a track and like the end
    yield sheet(track(scalar("02000000", "00010001"), scalar("00000000", "0E000000"), array("02000000", "02000000")))


def bad_sheets():
    good = sheet(track(scalar(ONE, HALF), array(HALF, ONE), loop=LOOPS[0]), AT)
    yield b""
    yield b"\0"
    for cut in (1, 3, 6, 7, 15, 16, 20):
        yield good[:-cut]
    for more in (1, 4):
        yield good + b"\0" * more
    yield b"\0\1" + good[2:]
    yield b"\0\3" + good[2:]
    yield sheet(track(scalar(ONE, HALF).replace("013F", "023F", 1)))  # neither percent nor seconds
    yield sheet(track("01" + ONE + "02" + HALF + "00"))  # neither a scalar nor an array
    yield sheet(track(scalar(ONE, HALF, easing="06" + MARKED)))
    yield sheet(track(scalar(ONE, HALF), loop="05"))
    yield sheet(track(scalar(ONE, HALF), start=f"{len(TEXT):04X}"))  # a start at the text's end
    yield sheet(track(scalar(ONE, HALF)).replace(NAME, f"{len(TEXT):04X}0001"))  # a name past it
    yield sheet(nested(17, track(scalar(ONE, HALF))))
    yield sheet("0F" + "0000")


def bad_planed():
    made = sheet(track(scalar(ONE, HALF), array(HALF, ONE), loop=LOOPS[0]), AT)
    good = planed(TEXT, made)
    for cut in (1, 2, 4, 12, 13, len(good) - 1, len(good)):
        yield good[: len(good) - cut]
    for more in (1, 2, 3, 4, 8):
        yield good + b"\0" * more
    yield good[:-12]  # no planes
    yield made  # a sheet whose numbers were not taken
    # a count, a kind of node, of time or of value is changed
    for place, byte in ((1, 3), (1, 1), (10, 1), (10, 3), (11, 2), (12, 1), (12, 2), (15, 0), (2, 14), (5, 255)):
        yield good[:place] + bytes([byte]) + good[place + 1 :]
    # and a byte of the planes
    for place in range(len(good) - 12, len(good)):
        yield good[:place] + b"\xff" + good[place + 1 :]


def both_ways(text, made, spare):
    """A sheet and its planed form, each with room for some bytes more, or fewer."""
    room = len(made) + spare
    return [(0, text, made, room), (1, text, planed(text, made), room)] if room >= 0 else []


def longest(size):
    """A sheet of so many bytes: a track of scalars, then an array that fills it up."""
    frames = [scalar(numbered(k % 60), MARKED) for k in range(40)]
    head = len(sheet(track(*frames, array(ONE), loop=LOOPS[0]), AT))
    words, odd = divmod(size - head, 4)
    labels = ["0D" + "0000" + NAME] * {0: 0, 1: 3, 2: 2, 3: 1}[odd]  # 7 bytes each
    words -= (7 * len(labels) - odd) // 4
    made = sheet(track(*frames, array(ONE, *[MARKED] * words), loop=LOOPS[0]), AT, *labels)
    assert len(made) == size
    return made


def stored():
    cases = []
    for made in [*without_tracks(), *with_tracks()]:
        cases += both_ways(TEXT, made, 0)
    last = sheet(track(scalar(numbered(0), numbered(1)), array(numbered(2), HALF)), AT)
    for made in (sheet(), sheet(AT), last):
        for spare in (-len(made), -1, 1, 5, 300):
            cases += both_ways(TEXT, made, spare)
    cases += [(0, TEXT, made, len(made)) for made in bad_sheets()]
    cases += [(1, TEXT, made, len(made)) for made in [*bad_planed(), *bad_sheets()]]
    cases += [(1, TEXT, made, 0) for made in (b"", b"\0\1", planed(TEXT, last)[:-1])]  # 40 comes before 32
    cases += [(0, TEXT, made, 0) for made in (b"", b"\0\1", last[:-1])]  # and 20 does
    # texts: the empty one, foreign bytes before all else, 16,384 and 16,385 bytes
    cases += [(0, b"", sheet(), 2), (1, b"", sheet(), 2), (0, b"", sheet(AT), 20), (1, b"", sheet(AT), 20)]
    for text in (b"\0" + TEXT, TEXT + b"\x7f", TEXT[:4] + b"\x80" + TEXT[4:] + b"\xff"):
        cases += [(back, text, data, room) for back in (0, 1) for data in (last, b"") for room in (0, 64)]
    long = b" " * 16384
    cases += [case for text in (long, long + b" ") for case in both_ways(long, last, 2) for case in [(case[0], text, *case[2:])]]
    cases += [(back, long + b"\0", b"", 1) for back in (0, 1)]
    # 65,535 bytes and more
    full, more = longest(65535), longest(65536)
    cases += [(0, TEXT, full, 65535), (1, TEXT, planed(TEXT, full), 4), (0, TEXT, more, 4), (1, TEXT, rearranged(more, walked(TEXT, more, 4).taken), 4)]
    return cases


def store(write):
    cases = stored()
    write([asked(case) for case in cases], [said(answer(case)) for case in cases])
    print(len(cases), "cases", dict(Counter(sort(case, answer(case)) for case in cases)))


# ---- through an archive

ANSWERER = r"""
#include <stdint.h>
#include <stdio.h>
#include <string.h>
uint64_t strip_read(const uint8_t *, size_t, uint16_t *, size_t, uint8_t *, size_t);
uint64_t strip_plane(const uint8_t *, size_t, const uint8_t *, size_t, uint8_t *, size_t);
uint64_t strip_unplane(const uint8_t *, size_t, const uint8_t *, size_t, uint8_t *, size_t);
static uint16_t scratch[16384];
static uint8_t text[65536], data[131072], out[131072], again[131072];
static char line[524288];
static int digit(char c) { return c <= '9' ? c - '0' : (c & 7) + 9; }
static size_t unhex(const char *s, uint8_t *to) {
    size_t n = 0;
    for (; s[2 * n] > ' '; n++) to[n] = digit(s[2 * n]) * 16 + digit(s[2 * n + 1]);
    return n;
}
static void print_bytes(const uint8_t *bytes, size_t n) {
    for (size_t i = 0; i < n; i++) printf("%02X", bytes[i]);
}
static void read_text(size_t n) {
    uint64_t a = strip_read(text, n, scratch, 16384, data, 49152);
    if (a >> 56) printf("refused");
    else print_bytes(data, a & 0xFFFFFF);
    puts("");
}
static uint64_t call(int back, size_t n, const uint8_t *from, size_t m, uint8_t *to, size_t room) {
    return back ? strip_unplane(text, n, from, m, to, room) : strip_plane(text, n, from, m, to, room);
}
/* the answer and the output; what is accepted must come back the other way, into an output of just that length */
static void answer(int back, size_t n, size_t m, size_t room) {
    memset(out, 7, sizeof out);
    uint64_t a = call(back, n, data, m, out, room);
    if (a >> 56) printf("refuse %u at %u ", (unsigned)(a >> 56), (unsigned)a);
    else printf("accept %u ", (unsigned)a);
    print_bytes(out, room);
    for (size_t i = room; i < room + 64; i++)
        if (out[i] != 7) printf(", written past the output");
    if (!(a >> 56) && (call(!back, n, out, a, again, m) != m || memcmp(again, data, m))) printf(", and not back");
    puts("");
}
int main(void) {
    while (fgets(line, sizeof line, stdin)) {
        char *part[4] = {line};
        int parts = 1;
        for (char *c = line; *c; c++)
            if (*c == '\t' && parts < 4) part[parts++] = c + 1;
        if (parts == 1) {
            read_text(unhex(line, text));
            continue;
        }
        uint8_t back[1], size[2];
        unhex(part[0], back);
        unhex(part[3], size);
        size_t n = unhex(part[1], text);
        answer(back[0], n, unhex(part[2], data), size[0] * 256 + size[1]);
    }
}
"""


class Library:
    """An archive's functions, which answer lines."""

    def __init__(self, archive, folder):
        self.program = compiled(ANSWERER, archive, folder)

    def answer(self, lines):
        done = subprocess.run([self.program], input="".join(line + "\n" for line in lines), capture_output=True, text=True, check=True)
        return done.stdout.split("\n")[:-1]

    def read(self, texts):
        """For each text its sheet, or None."""
        return [None if answered == "refused" else bytes.fromhex(answered) for answered in self.answer(text.hex() for text in texts)]


class Report:
    """How often each answer came up, and what differs."""

    def __init__(self):
        self.wrong, self.counts = 0, Counter()

    def compare(self, case, got):
        wanted = answer(case)
        self.counts[sort(case, wanted)] += 1
        if wanted[0][0] == "a":
            self.counts["bytes moved"] += sum(a != b for a, b in zip(case[2], wanted[1]))
        if got != said(wanted):
            self.wrong += 1
            if self.wrong <= 10:
                shown = asked(case), f"wanted {said(wanted)}", f"got    {got}"
                print("ANSWERS DIFFER", *(part[:600] for part in shown), sep="\n    ")

    def end(self, what):
        print(what, {key: self.counts[key] for key in sorted(self.counts)}, f"{self.wrong} differ", sep="; ")
        sys.exit(bool(self.wrong))


def changed(pick, data, places):
    """Some bytes at one of these places, or anywhere, changed."""
    data = bytearray(data)
    for _ in range(pick.choice([1, 1, 1, 2, 4])):
        at = pick.choice(places) if places and pick.randrange(4) else pick.randrange(len(data))
        data[at] = pick.choice([0, 1, 2, 3, 14, data[at] ^ 1, pick.randrange(256)])
    return bytes(data)


def with_numbers(pick, text, made):
    """A sheet whose frame numbers are f32s of any sort."""
    made = bytearray(made)
    for at in walked(text, made, 4).taken:
        if pick.randrange(2):
            made[at : at + 4] = odd_float(pick).to_bytes(4, "big")
    return bytes(made)


def room_for(pick, data):
    return max(0, min(65535, len(data) + pick.choice([0, 0, 0, 1, 17, 300, -1, -2, -len(data)])))


def variants(pick, text, made):
    """A sheet and its planed form; then damage to either, or to the text."""
    made = with_numbers(pick, text, made)
    form = planed(text, made)
    for back, data in (0, made), (1, form):
        yield back, text, data, room_for(pick, data)
        other = damage(pick, back, text, made, form)
        yield back, *other, room_for(pick, other[1])


def damage(pick, back, text, made, form):
    """A text, and a sheet or a planed form, one of them damaged."""
    data, at = (made, form)[back], pick.randrange(len(text) + 1)
    kind = pick.randrange(10)
    if kind == 0:
        return text[:at] + bytes([pick.choice([0, 1, 11, 31, 127, 128, 255])]) + text[at:], data
    if kind == 1:
        return text[:at], data
    if kind == 2:
        return text, data + bytes(pick.randrange(256) for _ in range(pick.choice([1, 2, 3, 4, 8])))
    if kind == 3:
        return text, data[: max(0, len(data) - pick.choice([1, 2, 3, 4, 8, pick.randrange(len(data) + 1)]))]
    if kind == 4:
        return text, (form, made)[back]
    if kind == 5 and not back:
        return text, damaged(pick, text, made)
    return text, changed(pick, data, walked(text, form, 0).taken if back else [])


def run(library, count, seed):
    pick, report, done, tracks = random.Random(seed), Report(), 0, 0
    while done < count:
        texts = [generated(pick) for _ in range(min(1000, 2 * (count - done)))]
        texts = [text for text in texts if len(text) <= writer.TEXT_LIMIT and (b"keyframes" in text or pick.randrange(4) == 0)]
        cases = []
        for text, made in zip(texts, library.read(texts), strict=True):
            if made is not None:
                done += 1
                tracks += bool(walked(text, made, 4).taken)
                cases += variants(pick, text, made)
        for case, got in zip(cases, library.answer(map(asked, cases)), strict=True):
            report.compare(case, got)
    report.end(f"{done} sheets, {tracks} of them with frames")


def run_stored(library, cases, answers):
    report = Report()
    for line, wanted, got in zip(cases, answers, library.answer(cases), strict=True):
        back, text, data, room = map(bytes.fromhex, line.split("\t"))
        case = back[0], text, data, int.from_bytes(room, "big")
        assert said(answer(case)) == wanted
        report.compare(case, got)
    report.end(f"{len(cases)} stored cases")


# ---- the time

TIMER = (
    r"""
#include <stdint.h>
#include <stdio.h>
#include <string.h>
#include <time.h>
uint64_t strip_read(const uint8_t *, size_t, uint16_t *, size_t, uint8_t *, size_t);
uint64_t strip_check(const uint8_t *, size_t, const uint8_t *, size_t, uint32_t);
uint64_t strip_plane(const uint8_t *, size_t, const uint8_t *, size_t, uint8_t *, size_t);
uint64_t strip_unplane(const uint8_t *, size_t, const uint8_t *, size_t, uint8_t *, size_t);
static uint16_t scratch[16384];
static uint8_t text[65536], sheet[49152], form[49152], back[49152];
"""
    + CLOCK
    + r"""
#define LEAST(call) \
    ({ double least = 1e12; for (int i = 0; i < 200; i++) { double began = now(); call; double took = now() - began; if (took < least) least = took; } least; })
int main(void) {
    size_t n = fread(text, 1, sizeof text, stdin), m = strip_read(text, n, scratch, 16384, sheet, 49152) & 0xFFFFFF;
    double check = LEAST(strip_check(text, n, sheet, m, 1));
    double plane = LEAST(strip_plane(text, n, sheet, m, form, m)), unplane = LEAST(strip_unplane(text, n, form, m, back, m));
    printf("%zu bytes of text, %zu of sheet: checking %.0f us, planing %.0f us, its inverse %.0f us, the least of 200 calls each; %s\n", n, m,
           check, plane, unplane, memcmp(sheet, back, m) ? "NOT BACK" : "the sheet comes back");
}
"""
)


def long_track():
    """2,497 frames at distinct times in 16,384 bytes of text."""
    text, k = "keyframes p {0:0", 1
    while len(more := f",{k}:0") + len(text) < 16384:
        text, k = text + more, k + 1
    return (text + "}").ljust(16384).encode()


def long_scripts():
    """The scripts of examples/, each repeated to 11 KB, and the long track, with their names."""
    for path in sorted(Path("examples").glob("*.strip")):
        script = path.read_bytes()
        yield path.stem, script * (11 * 1024 // len(script))
    yield "2,497 frames", long_track()


def timed(archive, folder):
    program = compiled(TIMER, archive, folder)
    for name, text in long_scripts():
        print(f"{name}: {subprocess.run([program], input=text, capture_output=True, check=True).stdout.decode()}", end="")


# ---- the packers


def packed(packer, data):
    """How many bytes a packer makes of some."""
    return len(subprocess.run(packer, input=data, capture_output=True, check=True).stdout)


def packs(library):
    for name, text in long_scripts():
        made = library.read([text])[0]
        for packer in ["zstd", "-3", "-c"], ["gzip", "-6", "-n", "-c"]:
            plain, form = packed(packer, made), packed(packer, planed(text, made))
            share = 100 * len(walked(text, made, 4).taken) * 4 / len(made)
            print(f"{name}: {len(made)} bytes, {share:.0f} % of them taken; {packer[0]} makes {plain} of the sheet, {form} of its planed form,", end=" ")
            print(f"{100 - 100 * form / plain:.1f} % less")


def written(its_cases, its_answers):
    """Writes lines to two files."""

    def write(cases, answers):
        for path, lines in (its_cases, cases), (its_answers, answers):
            open(path, "w", newline="\n").writelines(line + "\n" for line in lines)

    return write


def main():
    args = sys.argv[1:]
    if args == ["--store"]:
        from stored import store as put

        return store(lambda cases, answers: put(KIND, cases, answers))
    if len(args) == 3 and args[0] == "--write":
        return store(written(*args[1:]))
    found = without_archive(args)
    if found is None:
        sys.exit(__doc__)
    archive, args = found
    with tempfile.TemporaryDirectory() as folder:
        if args == ["--time"]:
            return timed(archive, folder)
        library = Library(archive, folder)
        if args == ["--pack"]:
            packs(library)
        elif args == ["--stored"]:
            cases = stored()
            run_stored(library, [asked(case) for case in cases], [said(answer(case)) for case in cases])
        else:
            run(library, int(args[0]), int(args[1]))


if __name__ == "__main__":
    main()
