#!/usr/bin/env python3
"""Numbers by document 02 (n), each as an `at`'s value, as a time, as a percent and as a whole number, and what reading and checking answer,
by exact fractions. Run from the repository's root.

  number_cases.py                         store the cases of the kind `number` and their answers (tools/stored.py)
  number_cases.py --lib A.a N SEED [rust] the longer run: N numbers more, long ones and exponents, through strip_read of an archive, and
                                          through the oracle's `read`, after oracle/build.sh

A case is a text in hexadecimal; an answer is as of the kind `script`."""
import random
import re
import subprocess
import sys
import tempfile
from collections import Counter
from fractions import Fraction

from archive import compiled
from numbers_drawn import drawn
from stored import store

# "Allow up to 40 digits before and 40 after the point, and after these an `e` or `E`, a sign or none, and one or two digits, the suffix
# `s` last."
FORM = re.compile(r"([0-9]+)(?:\.([0-9]+))?([eE][+-]?[0-9]{1,2})?(s)?")
INFINITY = 0x7F800000
ORACLE = "target/oracle/places/release/oracle"


class Refused(Exception):
    pass


def f32(x):
    """The bits of the f32 nearest to a fraction of 0 or more, a tie to the even one."""
    units = x * 2**149
    k = max(0, (units.numerator // units.denominator).bit_length() - 24)
    q, rest = divmod(units.numerator, units.denominator << k)
    q += 2 * rest > units.denominator << k or (2 * rest == units.denominator << k and q % 2)
    return min(q + (k << 23), INFINITY)


def size(bits):
    field, digits = divmod(bits, 2**23)
    return Fraction(digits if field == 0 else digits + 2**23 << field - 1, 2**149)


class Number:
    """A number at a place of a text: its value, and of what form it is. Raises the text rules' refusal."""

    def __init__(self, text, at):
        found = FORM.match(text, at)
        whole, part, power, suffix = found.groups()
        after = text[found.end() : found.end() + 2] + "  "
        plain = part is None and power is None and suffix is None
        if re.match(r"[A-Za-z0-9_]", after) or plain and after[0] == "." and after[1] != ".":
            raise Refused(2, at)
        if len(whole) > 40 or len(part or "") > 40:
            raise Refused(3, at)
        self.end = found.end()
        self.value = Fraction(int(whole + (part or "")), 10 ** len(part or "")) * Fraction(10) ** int((power or "e0")[1:])
        self.whole, self.suffix, self.after = part is None and power is None, suffix is not None, after[0]

    def before(self, mark):
        """Its value, where the mark follows it; 6 otherwise."""
        if self.after != mark:
            raise Refused(6, self.end)
        return self.value


def hexed(*parts):
    return "".join(part if isinstance(part, str) else f"{part:08X}" for part in parts)


SCALARS = "00" + "00000000" + "00"  # the value 0, and no easing
MINUS_ONE = "01BF800000" + "00" + "3F800000" + "00" + "00"  # -1: 1, no easing; no loop mode


def value_of(text):
    return hexed("0001", "0E0000", f32(Number(text, 3).before(";")), "00")


def time_of(text):
    time = Number(text, 12).before(":")
    return hexed("0001", "020000", "000A0001", "0002", "01", f32(time), SCALARS, MINUS_ONE)


def percent_of(text):
    """A whole percent n becomes n as f32, divided by 100.0; infinity stays one."""
    number = Number(text, 12)
    if not number.whole:
        raise Refused(6, number.end)  # a time in seconds: the `:` is missing
    if number.suffix:
        raise Refused(8, number.end)
    bits = f32(number.value)
    return hexed("0001", "020000", "000A0001", "0002", "00", bits if bits == INFINITY else f32(size(bits) / 100), SCALARS, MINUS_ONE)


def whole_of(text):
    at = text.index("times(") + 6
    number = Number(text, at)
    if not number.whole:
        raise Refused(6, at)
    if number.value > 4294967295:
        raise Refused(8, number.end)
    return hexed("0001", "000000", "00060001", "0000000000", "003F800000", 0x3F800000, "00", "00", "00", "0101", int(number.value), "00", "00", "00")


SORTS = {
    "at {};": value_of,
    "keyframes p{{{}:0,-1:1}}": time_of,
    "keyframes p{{{}%:0,-1:1}}": percent_of,
    "tween p:0=>1 duration:1 loop:times({})": whole_of,
}


def answer(text, sort):
    try:
        return f"accept 1 {sort(text)}\taccept"
    except Refused as refused:
        return "refuse {} at {}".format(*refused.args)


def cases(numbers):
    for number in numbers:
        for form, sort in SORTS.items():
            text = form.format(number)
            yield text, answer(text, sort)


def listed():
    """Every form that 02 (n) and its decisions name, and the ends of what f32 holds."""
    largest, step = 2**128 - 2**104, 2**128 - 2**103
    least = Fraction(1, 2**149)
    yield from "1.25e-3 1e2 1E2 1e+2 1E-2 1e05 1e5s 1.5e1s 1e5.5 1e5..2 1.e5 1e 1e+ 1e- 1e005 1e100 1e5x 1se5 1e5e5 1e_5 1.5e 0e99 0e-99 0.0e0".split()
    yield "1e 5"
    for whole in (10, 11, 39, 40, 41):
        for digit in "019":
            yield digit * whole
            yield digit * whole + "e5"
    for places in (9, 10, 39, 40, 41):
        for digit in "019":
            yield "0." + digit * places
            yield "0." + digit * places + "e-2"
    yield from ("0" * 41 + "e005", "1" * 41 + "e", "0." + "1" * 41 + "e+", "0." + "0" * 41 + "x", "1" * 41 + "." + "1" * 41)
    yield from ("9" * 40 + "." + "9" * 40 + "e99", "0." + "0" * 39 + "1e-99")
    for n in (largest - 1, largest, largest + 1, step - 1, step, step + 1, 2**128, 2**24, 2**24 + 1, 2**24 + 3, 4294967295, 4294967296):
        yield str(n)
        yield str(n).zfill(40)
    yield from ("4294967295.0", "0" * 31 + "4294967295", "16777216e0", "1e38", "3.4028235e38", "3.4028236e38", "1e39", "1e99")
    for units in (Fraction(1, 2), 1, Fraction(3, 2), 2, Fraction(5, 2), 2**23 - 1, 2**23 - Fraction(1, 2), 2**23):
        for digits in (17, 40, 80):  # just below and just above; with 80 digits none of these, and no tie between two of them, is written
            yield from beside(least * units, digits)
    for k in (0, 1, 24, 40, 47, 104):  # ties, of 40 places at k = 40 and of 80 digits at 104, and beside them
        n = (2**24 + 1) * 5**k
        yield from (form(n + off, k) for off in (-1, 0, 1) for form in (spelled, plain)[: 1 + (k <= 40)])
    yield from ("7e-46", "8e-46", "1e-45", "2.1e-45", "1.1754943e-38", "1.1754942e-38", "1.17549435e-38")


def spelled(n, places):
    """n / 10^places, for n of at most 80 digits: 40 before the point, the rest behind it, and an exponent."""
    digits = str(n)
    behind = max(0, len(digits) - 40)
    point = len(digits) - behind
    power = behind - places
    return digits[:point] + "." * (behind > 0) + digits[point:] + (f"e{power}" if power else "")


def plain(n, places):
    """The same without an exponent, for at most 40 places."""
    digits = str(n).zfill(places + 1)
    point = len(digits) - places
    return digits[:point] + "." * (places > 0) + digits[point:]


def beside(x, digits):
    """The two numbers of so many digits between which a small fraction lies."""
    places = digits - 1
    while x * 10 ** (places + 1) < 10**digits:
        places += 1
    n = int(x * 10**places)
    assert len(str(n)) == digits
    yield from (spelled(n, places), spelled(n + 1, places))


def unique(numbers):
    return list(dict.fromkeys(numbers))


def ties(pick):
    """A number between two f32, and one beside it, as far as 40 and 40 digits and an exponent say."""
    bits = pick.randrange(INFINITY)
    middle = (size(bits) + size(bits + 1)) / 2
    power = pick.randrange(100)
    n = int(middle * 10**power)
    n += pick.randrange(3) - 1 if n else 0
    return f"{n}e-{power}" if len(str(n)) <= 40 else f"{str(n)[:40]}e{min(99, max(0, len(str(n)) - 40 - power))}"


def exact(pick):
    """A number in the middle of two f32, of up to 80 digits, or one unit of its last digit beside it."""
    k = pick.randrange(104)
    form = pick.choice([spelled, plain]) if k <= 40 else spelled
    return form((2 * pick.randrange(2**23, 2**24) + 1) * 5**k + pick.choice([-1, 0, 0, 0, 1]), k)


DRIVER = r"""
#include <stdint.h>
#include <stdio.h>
#include <string.h>
uint64_t strip_read(const uint8_t *, size_t, uint16_t *, size_t, uint8_t *, size_t);
static uint16_t scratch[64];
static uint8_t sheet[49152];
static char line[65536];
int main(void) {
    while (fgets(line, sizeof line, stdin)) {
        size_t n = strcspn(line, "\n");
        uint64_t r = strip_read((uint8_t *) line, n, scratch, 64, sheet, 49152);
        unsigned long long low = r & 0xFFFFFFFFFFFFFFull;
        if (r >> 56) { printf("refuse %u at %llu\n", (unsigned) (r >> 56), low); continue; }
        printf("accept %u ", (unsigned) (r >> 24 & 65535));
        for (size_t i = 0; i < (r & 0xFFFFFF); i++) printf("%02X", sheet[i]);
        printf("\n");
    }
}
"""


def told(command, lines):
    return subprocess.run(command, input="".join(line + "\n" for line in lines), capture_output=True, text=True, check=True).stdout.splitlines()


def run(archive, count, seed, rust):
    pick, counts = random.Random(seed), Counter(texts=0, accepted=0, differ=0)
    with tempfile.TemporaryDirectory() as folder:
        program = compiled(DRIVER, archive, folder)
        for start in range(0, count, 10000):
            numbers = [pick.choice([drawn, drawn, ties, exact])(pick) for _ in range(min(10000, count - start))]
            counts["with an exponent"] += sum("e" in number.lower() for number in numbers)
            wanted = list(cases(numbers))
            answers = [answer.split("\t")[0] for _, answer in wanted]
            counts["texts"] += len(wanted)
            counts["accepted"] += sum(answer.startswith("accept") for answer in answers)
            count_differing("differ", wanted, answers, told([program], [text for text, _ in wanted]), counts)
            if rust:
                ours = told([ORACLE, "read"], [text.encode().hex() for text, _ in wanted])
                count_differing("differ from the oracle", wanted, [answer for _, answer in wanted], ours, counts)
    print(f"{count} numbers", dict(counts), sep="; ")
    sys.exit(bool(counts["differ"] + counts["differ from the oracle"]))


def count_differing(name, wanted, answers, got, counts):
    for (text, _), want, other in zip(wanted, answers, got, strict=True):
        if want != other:
            counts[name] += 1
            if counts[name] <= 10:
                print(name, text, want, other, sep="\n  ")
    counts[name] += 0


def main():
    match sys.argv[1:]:
        case []:
            pick = random.Random(14)
            more = [make(pick) for make, count in ((ties, 40), (drawn, 60), (exact, 20)) for _ in range(count)]
            texts = list(cases(unique([*listed(), *more])))
            store("number", [text.encode().hex().upper() for text, _ in texts], [told for _, told in texts])
        case ["--lib", archive, count, seed, *rust] if rust in ([], ["rust"]):
            run(archive, int(count), int(seed), bool(rust))
        case _:
            sys.exit(__doc__)


if __name__ == "__main__":
    main()
