/*
 * Reads a script from standard input, checks it, and prints its lines, then `accept N`; or `refuse R at P`, with the argument `calls` or
 * none. With `page` one call does it all; with `feed` the script is fed to empty totals, and what is printed is its answer, the count of its node records
 * and the mean entries of its tracks; with `rounded` it prints how many numbers were rounded instead; with `back` a fresh script that
 * reads to the same tree; with `plane` the planed form of its sheet in hexadecimal, once it has come back to the sheet; with `color` the
 * input is one colour, a line feed at its end apart, and what is printed is its red, green, blue and alpha; with `lookup`, a chain's book and a name the input is a
 * store's book, and what is printed is the body; with `order` it is a book, and what is printed are the ordinals of its items by their
 * calls; with `wave`, a kind and a phase the input is left aside, and what is printed is every sixteenth height; with `short` reading is
 * lent a word of scratch less than it needs, and refuses.
 */
#include "strip.h"

#include <stdio.h>
#include <stdlib.h>
#include <string.h>

static uint8_t text[STRIP_TEXT_BYTES + 1];
static uint16_t scratch[STRIP_SCRATCH_WORDS];
static uint8_t sheet[STRIP_SHEET_BYTES];
static uint8_t output[65536];
static uint8_t page[STRIP_PAGE_BYTES];

/* Prints a refusal, if there is one, and says whether there is. */
static int refused(uint64_t answer) {
    if (strip_number(answer) == STRIP_ACCEPTED)
        return 0;
    printf("refuse %u at %u\n", (unsigned)strip_number(answer), (unsigned)strip_value(answer));
    return 1;
}

/* Feeds the text to empty totals, and prints what they then have. */
static void feed(size_t length) {
    uint32_t totals[STRIP_TOTALS_WORDS] = {0};
    uint32_t mean[2];
    uint64_t fed = strip_feed(totals, text, length, scratch, STRIP_SCRATCH_WORDS, sheet, STRIP_SHEET_BYTES, STRIP_RUST_COLORS);
    if (refused(fed))
        return;
    if (strip_script_number(fed) != STRIP_ACCEPTED) {
        printf("refuse %u at %u\n", (unsigned)strip_script_number(fed), (unsigned)strip_value(fed));
        return;
    }
    strip_mean(totals, 0, mean);
    printf("accept %u", (unsigned)mean[0]);
    if (strip_value(strip_mean(totals, 1, mean)) == 1)
        printf(", %u/%u", (unsigned)mean[0], (unsigned)mean[1]);
    printf("\n");
}

/* Prints a fresh script of the text and its sheet. */
static void back(size_t length, size_t size) {
    uint64_t written = strip_write(text, length, sheet, size, output, sizeof output, STRIP_RUST_COLORS);
    if (refused(written))
        return;
    fwrite(output, 1, strip_value(written), stdout);
    printf("\n");
}

/* Prints the body of a name, from the text as the store's book or from the chain's. */
static void lookup(size_t length, const char *chain, const char *name) {
    const uint8_t *books[2] = {text, (const uint8_t *)chain};
    uint64_t found = strip_lookup(text, length, books[1], strlen(chain), (const uint8_t *)name, strlen(name));
    if (refused(found))
        return;
    fwrite(books[strip_body_book(found)] + strip_body_start(found), 1, strip_body_length(found), stdout);
    printf("\n");
}

/* Prints the ordinals of the text's items. */
static void order(size_t length) {
    uint64_t listed = strip_order(text, length, output, STRIP_ITEM_LIMIT);
    if (refused(listed))
        return;
    for (uint32_t i = 0; i < strip_value(listed); i++)
        printf("%s%u", i ? " " : "", (unsigned)output[i]);
    printf("\n");
}

/* Prints the planed form of the sheet, if it comes back to the sheet. */
static void plane(size_t length, size_t size) {
    uint64_t planed = strip_plane(text, length, sheet, size, output, sizeof output);
    if (refused(planed))
        return;
    uint64_t again = strip_unplane(text, length, output, strip_value(planed), page, sizeof page);
    if (refused(again))
        return;
    if (strip_value(again) != size || memcmp(page, sheet, size) != 0) {
        printf("another sheet\n");
        return;
    }
    for (uint32_t i = 0; i < strip_value(planed); i++)
        printf("%02X", (unsigned)output[i]);
    printf("\n");
}

/* Prints every sixteenth height of a waveform. */
static void wave(uint32_t kind, uint32_t phase) {
    int16_t heights[STRIP_WAVE_HEIGHTS];
    if (refused(strip_wave(kind, phase, heights, STRIP_WAVE_HEIGHTS)))
        return;
    for (int i = 0; i < STRIP_WAVE_HEIGHTS; i += 16)
        printf("%s%d", i ? " " : "", heights[i]);
    printf("\n");
}

/* Whether the arguments are a mode and what it takes. */
static int known(int argc, char **argv) {
    static const char *const plain[] = {"calls", "page", "feed", "rounded", "back", "plane", "color", "order", "short"};
    if (argc == 1)
        return 1;
    if (argc == 4)
        return strcmp(argv[1], "lookup") == 0 || strcmp(argv[1], "wave") == 0;
    for (size_t i = 0; argc == 2 && i < sizeof plain / sizeof plain[0]; i++)
        if (strcmp(argv[1], plain[i]) == 0)
            return 1;
    return 0;
}

int main(int argc, char **argv) {
    if (!known(argc, argv)) {
        fprintf(stderr, "usage: %s [calls | page | feed | rounded | back | plane | color | order | short | lookup CHAIN NAME | wave KIND PHASE]\n", argv[0]);
        return 2;
    }
    size_t length = fread(text, 1, sizeof text, stdin);
    if (ferror(stdin)) {
        perror("standard input");
        return 1;
    }
    if (argc > 1 && strcmp(argv[1], "color") == 0) {
        if (length > 0 && text[length - 1] == '\n')
            length--;
        uint64_t color = strip_color(text, length);
        if (!refused(color))
            printf("%08X\n", (unsigned)strip_value(color));
        return 0;
    }
    if (argc == 4 && strcmp(argv[1], "lookup") == 0) {
        lookup(length, argv[2], argv[3]);
        return 0;
    }
    if (argc == 4 && strcmp(argv[1], "wave") == 0) {
        wave((uint32_t)strtoul(argv[2], NULL, 10), (uint32_t)strtoul(argv[3], NULL, 10));
        return 0;
    }
    if (argc > 1 && strcmp(argv[1], "order") == 0) {
        order(length);
        return 0;
    }
    if (argc > 1 && strcmp(argv[1], "feed") == 0) {
        feed(length);
        return 0;
    }
    if (argc > 1 && strcmp(argv[1], "page") == 0) {
        uint64_t printed =
            strip_print(text, length, scratch, STRIP_SCRATCH_WORDS, sheet, STRIP_SHEET_BYTES, page, STRIP_PAGE_BYTES, STRIP_RUST_COLORS);
        fwrite(page, 1, strip_value(printed), stdout);
        return 0;
    }
    size_t words = STRIP_SCRATCH_WORDS;
    if (argc > 1 && strcmp(argv[1], "short") == 0)
        words--;
    uint64_t reading = strip_read(text, length, scratch, words, sheet, STRIP_SHEET_BYTES);
    if (refused(reading))
        return 0;
    if (argc > 1 && strcmp(argv[1], "rounded") == 0) {
        printf("%u\n", (unsigned)strip_rounded(reading));
        return 0;
    }
    uint32_t size = strip_sheet_length(reading);
    if (argc > 1 && strcmp(argv[1], "back") == 0) {
        back(length, size);
        return 0;
    }
    if (argc > 1 && strcmp(argv[1], "plane") == 0) {
        plane(length, size);
        return 0;
    }
    uint32_t records = strip_records(reading);
    if (refused(strip_check(text, length, sheet, size, STRIP_RUST_COLORS)))
        return 0;
    for (uint32_t ordinal = 0; ordinal <= records; ordinal++) {
        uint64_t line = strip_line(text, length, sheet, size, ordinal, output, sizeof output);
        if (refused(line))
            return 0;
        fwrite(output, 1, strip_value(line), stdout);
    }
    printf("accept %u\n", (unsigned)records);
    return 0;
}
