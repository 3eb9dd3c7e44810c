#!/usr/bin/env python3
"""What strip_color of an archive answers, against outside tables of the named colours: that of npm's package color-name (Debian's nodejs
has it, 148 names) and that of vim (vim-runtime: 147, without rebeccapurple). Run it from the repository's root.

  color_table.py N SEED --lib A.a    each name as it is, in capitals and mixed; what is nearly a name; all forms of `#` and three digits;
                                     and N other hexadecimal strings, good and bad
  color_table.py --time N --lib A.a  the least time in N rounds of checking under the second list to that under the first, by turns: of
                                     the fades of examples/ and of a fade through the Rust's 22 names, each repeated to 10 KB
"""
import glob
import os
import random
import re
import subprocess
import sys
import tempfile
from collections import Counter

from archive import CLOCK, compiled, without_archive

NPM = "/usr/lib/node_modules/npm/node_modules/color-name/index.js"
VIM = "/usr/share/vim/vim90/colors/lists/csscolors.vim"
X11 = "/usr/share/X11/rgb.txt"  # many more names, which are no colours here
HEX = "0123456789abcdefABCDEF"
INVALID_COLOR = 25

ANSWERER = r"""
#include <stdint.h>
#include <stdio.h>
#include <stdlib.h>
#include <string.h>
uint64_t strip_color(const uint8_t *, size_t);
static char line[4096];
int main(void) {
    while (fgets(line, sizeof line, stdin)) {
        size_t n = (strlen(line) - 1) / 2;
        uint8_t *string = malloc(n ? n : 1);
        for (size_t i = 0; i < n; i++) {
            unsigned byte;
            sscanf(line + 2 * i, "%2x", &byte);
            string[i] = byte;
        }
        printf("%016llx\n", (unsigned long long)strip_color(string, n));
        free(string);
    }
}
"""


TIMER = (
    r"""
#include <stdint.h>
#include <stdio.h>
#include <stdlib.h>
#include <time.h>
uint64_t strip_read(const uint8_t *, size_t, uint16_t *, size_t, uint8_t *, size_t);
uint64_t strip_check(const uint8_t *, size_t, const uint8_t *, size_t, uint32_t);
static uint16_t scratch[64];
static uint8_t text[16385], sheet[49152];
"""
    + CLOCK
    + r"""
int main(int argc, char **argv) {
    size_t n = fread(text, 1, sizeof text, stdin);
    uint64_t length = strip_read(text, n, scratch, 64, sheet, 49152) & 0xFFFFFF;
    double least[3] = {0, 1e9, 1e9};
    for (int round = 0; round < atoi(argv[1]); round++)
        for (uint32_t list = 1; list < 3; list++) {
            double start = now();
            if (strip_check(text, n, sheet, length, list)) return 1;
            double time = now() - start;
            if (time < least[list]) least[list] = time;
        }
    printf("%zu bytes: list 1 %.2f us, list 2 %.2f us, ratio %.2f\n", n, least[1], least[2], least[2] / least[1]);
    return argc < 2;
}
"""
)

# is_named_color of presets.rs
RUST = """black white red green blue yellow cyan magenta gray grey orange purple pink brown lime teal navy maroon olive silver aqua
fuchsia""".split()


def tables():
    """The names of npm's table, small, with their three bytes. Vim's must be equal but for one name."""
    rows = re.findall(r'"(\w+)": \[(\d+), (\d+), (\d+)\]', open(NPM).read())
    names = {name: bytes(map(int, values)) for name, *values in rows}
    if len(names) != 148:
        sys.exit(f"{NPM}: {len(names)} names, not 148")
    if os.path.exists(VIM):
        rows = re.findall(r"'css_(\w+)': '#(\w{6})'", open(VIM).read())
        other = {name: bytes.fromhex(value) for name, value in rows}
        if {**other, "rebeccapurple": names["rebeccapurple"]} != names:
            sys.exit(f"{VIM} and {NPM} differ")
        print(f"{VIM}: the same but for rebeccapurple")
    return names


def wanted(names, string):
    """02 (g): red, green, blue and alpha, or None."""
    if not string.startswith("#"):
        value = names.get(string.encode().lower().decode())  # bytes: ASCII's letters alone
        return value and value + b"\xff"
    digits = string[1:]
    if len(digits) not in (3, 4, 6, 8) or any(d not in HEX for d in digits):
        return None
    if len(digits) < 6:
        digits = "".join(2 * d for d in digits)
    return (bytes.fromhex(digits) + b"\xff")[:4]


def near(name):
    """A name with a letter left out, doubled or changed, with more in front or behind."""
    for i in range(len(name)):
        yield name[:i] + name[i + 1 :]
        yield name[:i] + 2 * name[i] + name[i + 1 :]
        yield name[:i] + chr(ord(name[i]) ^ 1) + name[i + 1 :]
        yield name[:i] + chr(ord(name[i]) ^ 64) + name[i + 1 :]
    yield from (" " + name, name + " ", name + "\0", "#" + name, name + name, name + 40 * "x")


def others():
    """Strings that are no colours, and X11's names."""
    yield from ("", "#", "transparent", "currentcolor", "currentColor", "inherit", "none", "rgb(1,2,3)", "0xff0000", "\u212a", "\u017fnow")
    if os.path.exists(X11):
        yield from re.findall(r"^\s*\d+\s+\d+\s+\d+\s+(.*\S)", open(X11).read(), re.M)


def digits(pick, length):
    """As many hexadecimal digits, at times one of them spoiled."""
    found = [pick.choice(HEX) for _ in range(length)]
    if found and pick.random() < 0.3:
        found[pick.randrange(length)] = pick.choice("gG/:@`# \0\x7f")
    return "#" + "".join(found)


def strings(names, count, pick):
    for name in names:
        yield from (name, name.upper(), name.title(), "".join(pick.choice((c, c.upper())) for c in name))
        yield from near(name)
    yield from others()
    yield from (f"#{a}{b}{c}" for a in HEX for b in HEX for c in HEX)
    for _ in range(count):
        yield digits(pick, pick.choice((0, 1, 2, 3, 4, 4, 4, 5, 6, 6, 6, 7, 8, 8, 8, 9, 10)))


def answers(archive, asked):
    with tempfile.TemporaryDirectory() as folder:
        program = compiled(ANSWERER, archive, folder)
        lines = "".join(string.encode().hex() + "\n" for string in asked)
        done = subprocess.run([program], input=lines, capture_output=True, text=True, check=True)
    return [int(line, 16) for line in done.stdout.split()]


def repeated(script):
    return script * (10_000 // len(script) + 1)


def timed(archive, rounds):
    scripts = {name: open(name, "rb").read() for name in sorted(glob.glob("examples/fade-*.strip"))}
    fade = "".join(f'color c: "{a}" => "{b}" duration: 1;\n' for a, b in zip(RUST, RUST[1:] + RUST[:1]))
    scripts["a fade through the Rust's names"] = fade.encode()
    with tempfile.TemporaryDirectory() as folder:
        program = compiled(TIMER, archive, folder)
        for name, script in scripts.items():
            done = subprocess.run([program, rounds], input=repeated(script), capture_output=True, check=True)
            print(f"{name}: {done.stdout.decode().strip()}")


def main():
    found = without_archive(sys.argv[1:])
    if found is None or len(found[1]) != 2:
        sys.exit(__doc__)
    archive, args = found
    if args[0] == "--time":
        return timed(archive, args[1])
    names = tables()
    asked = list(strings(names, int(args[0]), random.Random(int(args[1]))))
    got = answers(archive, asked)
    tally, bad = Counter(), len(asked) - len(got)
    for string, answer in zip(asked, got):
        value = wanted(names, string)
        tally["refused" if value is None else "digits" if string[0] == "#" else "names"] += 1
        if answer != (INVALID_COLOR << 56 if value is None else int.from_bytes(value, "big")):
            bad += 1
            print(f"{string!r}: {answer:016x}, not {value and value.hex()}")
    print(f"{NPM}: {len(names)} names; asked {dict(tally)}; {bad} differ")
    return 1 if bad else 0


if __name__ == "__main__":
    sys.exit(main())
