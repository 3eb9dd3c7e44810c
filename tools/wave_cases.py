#!/usr/bin/env python3
"""Waveforms drawn as 256 heights, by the words of document 02 (l), with a double-precision sine. Run it from the repository's root.

  wave_cases.py --store             make the stored cases `wave`: a line is a kind and a phase, four bytes each, and a number of heights in
                                    two, in hexadecimal with tabs between; its answer `accept` or `refuse R at P`, a tab, and the heights
                                    afterwards, two bytes each in two's complement; each was 0707 when it was lent
  wave_cases.py --run --lib A.a     the longer run: strip_wave of an archive with kinds 0 to 5 and 4294967295, phases 0 to 257 and the
                                    largest, and 0, 255, 256, 257 and 300 heights; whether the answers and the heights are right
  wave_cases.py --time N --lib A.a  the least time of N calls for each kind
"""
import itertools
import math
import subprocess
import sys
import tempfile

from archive import CLOCK, compiled, without_archive
from stored import store

SINE, SAWTOOTH, SQUARE, TRIANGLE, NOISE = range(5)
PEAK, STEPS = 32767, 256
LENT = 0x0707
LARGEST = 2**32 - 1


def quarter(kind, p):
    """The sine or the triangle at a step from 0 to 64."""
    if kind == SINE:
        return math.floor(PEAK * math.sin(math.pi / 2 * (16 * p) / 1024) + 0.5)
    return PEAK * p // 64


def height(kind, p):
    if kind == SQUARE:
        return PEAK if p <= 127 else -PEAK
    if kind == SAWTOOTH:
        return 65534 * p // 255 - PEAK
    half = p % 128
    size = quarter(kind, half if half <= 64 else 128 - half)
    return size if p < 128 else -size


def drawn(kind, phase, count):
    """What drawing answers, and the heights afterwards."""
    heights = [LENT] * count
    if kind not in (SINE, SAWTOOTH, SQUARE, TRIANGLE):
        return "refuse 41 at 0", heights
    if phase >= STEPS:
        return "refuse 42 at 0", heights
    if count < STEPS:
        return "refuse 32 at 0", heights
    heights[:STEPS] = [height(kind, (p + phase) % STEPS) for p in range(STEPS)]
    return "accept", heights


def said(answer):
    return answer[0] + "\t" + "".join(f"{height % 65536:04X}" for height in answer[1])


def asked(case):
    kind, phase, count = case
    return f"{kind:08X}\t{phase:08X}\t{count:04X}"


def stored_ones():
    """Each kind at some phases; all lengths about 256; and the refusals, alone and with those that come later."""
    cases = list(itertools.product((SINE, SAWTOOTH, SQUARE, TRIANGLE), (0, 1, 64, 255, 256), (256,)))
    cases += itertools.product((SINE, TRIANGLE), (0, 129), (0, 255, 257))
    cases += itertools.product((NOISE, 5, LARGEST), (0, 256), (256, 255))
    cases += [(SQUARE, phase, count) for phase in (256, 257, LARGEST) for count in (255, 256)]
    cases += [(SAWTOOTH, 17, 300), (2**31, 17, 256), (256, 0, 256), (SINE, 2**16, 256)]
    return cases


# ---- runs through an archive

ANSWERER = r"""
#include <inttypes.h>
#include <stdint.h>
#include <stdio.h>
uint64_t strip_wave(uint32_t kind, uint32_t phase, int16_t *heights, size_t count);
int main(void) {
    static int16_t heights[512];
    uint32_t kind, phase, count;
    while (scanf("%" SCNx32 " %" SCNx32 " %" SCNx32, &kind, &phase, &count) == 3) {
        for (int i = 0; i < 512; i++)
            heights[i] = 0x0707;
        uint64_t answer = strip_wave(kind, phase, heights, count);
        if (answer >> 56)
            printf("refuse %d at %" PRIu32 "\t", (int)(answer >> 56), (uint32_t)answer);
        else
            printf(answer == 0 ? "accept\t" : "a value\t");
        for (uint32_t i = 0; i < count; i++)
            printf("%04X", (unsigned)(uint16_t)heights[i]);
        for (uint32_t i = count; i < 512; i++)
            if (heights[i] != 0x0707)
                printf(" past the heights");
        printf("\n");
    }
}
"""

TIMER = (
    r"""
#include <stdint.h>
#include <stdio.h>
#include <stdlib.h>
#include <time.h>
uint64_t strip_wave(uint32_t kind, uint32_t phase, int16_t *heights, size_t count);
"""
    + CLOCK
    + r"""
int main(int argc, char **argv) {
    static int16_t heights[256];
    static const char *const names[] = {"sine", "sawtooth", "square", "triangle"};
    for (uint32_t kind = 0; kind < 4; kind++) {
        double least = 1e9;
        for (int i = 0; i < atoi(argv[argc - 1]); i++) {
            double start = now();
            for (uint32_t k = 0; k < 100; k++)
                strip_wave(kind, k, heights, 256);
            double took = (now() - start) / 100;
            if (took < least)
                least = took;
        }
        printf("%s: %.2f us\n", names[kind], least);
    }
}
"""
)


def longer(archive):
    kinds, phases, counts = (*range(6), LARGEST), (*range(258), LARGEST), (0, 255, 256, 257, 300)
    cases = list(itertools.product(kinds, phases, counts))
    with tempfile.TemporaryDirectory() as folder:
        lines = "".join(asked(case) + "\n" for case in cases)
        program = compiled(ANSWERER, archive, folder)
        answers = subprocess.run([program], input=lines, capture_output=True, text=True, check=True).stdout.splitlines()
    assert len(answers) == len(cases)
    seen, wrong = {}, 0
    for case, answer in zip(cases, answers):
        seen[answer.split("\t")[0]] = seen.get(answer.split("\t")[0], 0) + 1
        if answer != said(drawn(*case)):
            wrong += 1
            print(f"{case}: {answer[:60]}, not {said(drawn(*case))[:60]}")
    print(f"{len(cases)} calls: {', '.join(f'{n} {answer}' for answer, n in seen.items())}; {wrong or 'none'} wrong")
    return wrong > 0


def timed(archive, rounds):
    with tempfile.TemporaryDirectory() as folder:
        subprocess.run([compiled(TIMER, archive, folder), rounds], check=True)


def main():
    if sys.argv[1:] == ["--store"]:
        cases = stored_ones()
        store("wave", map(asked, cases), [said(drawn(*case)) for case in cases])
        return 0
    archive = without_archive(sys.argv[1:])
    if archive and archive[1] == ["--run"]:
        return longer(archive[0])
    if archive and archive[1][:1] == ["--time"]:
        return timed(archive[0], archive[1][1])
    return __doc__


if __name__ == "__main__":
    sys.exit(main())
