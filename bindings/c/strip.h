/*
 * Motion scripts of shelf-edge strips: reading a script into a sheet of bytes, checking the sheet, lining its records in
 * hexadecimal, all of it at once on a page, writing a fresh script from text and sheet, telling the bytes of a colour, converting old
 * sheets, putting like bytes of a sheet together for storage and back, counting many scripts in the totals of a morning sheet, looking a
 * name up in books of named scripts, listing a book's items by their calls, and drawing a waveform as heights. `tools/staticlib.py strip`
 * writes the library, target/staticlib/libstrip.a.
 *
 * No pointer is NULL, not even where its length is 0. What is written to overlaps nothing else that is lent. A length is in
 * elements. Nothing is allocated.
 *
 * The floating-point mode is C's default: rounding to nearest, and no denormal taken or stored as zero (on x86-64 neither DAZ nor FTZ is
 * set in MXCSR). In another mode answers may differ: rounding upward, `1%` is stored as 3C23D70B, and not as 3C23D70A.
 *
 * The most stack that was seen for a call, in bytes: strip_order 128,600, strip_lookup 62,904, strip_read 18,808. strip_check, strip_print,
 * strip_feed and strip_write 39,840, of a script with a track of more than 64 frames inside 16 containers; of a script without such a
 * track strip_check and strip_write 11,856, strip_print and strip_feed 128 more than strip_read. The others 3,256.
 *
 * Each function answers with one number: the refusal's, 0 for accepted, times 2^56, plus a value.
 */
#ifndef STRIP_H
#define STRIP_H

#include <stddef.h>
#include <stdint.h>

#ifdef __cplusplus
extern "C" {
#endif

/* The longest text, the fewest words of scratch, a sheet long enough for every text, and the shortest page, which is so too. */
#define STRIP_TEXT_BYTES 16384
#define STRIP_SCRATCH_WORDS 64
#define STRIP_SHEET_BYTES 49152
#define STRIP_PAGE_BYTES 147456

/* The most items that a book may have. */
#define STRIP_ITEM_LIMIT 128

/* The lists of named colours, for what checks: the Rust's 22, and the 148 of CSS Color Module Level 4. */
#define STRIP_RUST_COLORS 1
#define STRIP_CSS_COLORS 2

/* The kinds of waveforms that are drawn, and how many heights a period has. */
#define STRIP_SINE 0
#define STRIP_SAWTOOTH 1
#define STRIP_SQUARE 2
#define STRIP_TRIANGLE 3
#define STRIP_WAVE_HEIGHTS 256

/* The causes of refusal. */
enum strip_refusal {
    STRIP_ACCEPTED = 0,
    STRIP_TEXT_TOO_LONG = 1,
    STRIP_BAD_FORM = 2,
    STRIP_TOO_MANY_DIGITS = 3,
    STRIP_UNBALANCED = 4,
    STRIP_TOO_MANY_OPEN = 5,
    STRIP_MISSING = 6,
    STRIP_UNKNOWN_KEYWORD = 7,
    STRIP_MALFORMED = 8,
    STRIP_UNKNOWN_SPRING_PRESET = 9,
    STRIP_MISSING_DURATION = 10,
    STRIP_STAGGER_GRID_INCOMPLETE = 11,
    STRIP_TOO_MANY_NESTED = 12,
    STRIP_LEFTOVER = 13,
    STRIP_SHEET_TOO_SHORT = 14,
    STRIP_NOISE_WRITTEN = 15,
    STRIP_SCRATCH_TOO_SHORT = 16,
    STRIP_NOT_A_SHEET = 20,
    STRIP_OUT_OF_RANGE = 21,
    STRIP_VALUE_TYPE_MISMATCH = 22,
    STRIP_UNKNOWN_EASING = 23,
    STRIP_UNKNOWN_PRESET = 24,
    STRIP_INVALID_COLOR = 25,
    STRIP_DUPLICATE_TIME = 26,
    STRIP_TOO_FEW_FRAMES = 27,
    STRIP_NOISE_HELD = 28,
    STRIP_NO_SUCH_RECORD = 31,
    STRIP_OUTPUT_TOO_SHORT = 32,
    STRIP_TOO_MANY_SCRIPTS = 33,
    STRIP_UNWRITABLE = 34,
    STRIP_SCRIPT_TOO_LONG = 35,
    STRIP_UNKNOWN_LIST = 36,
    STRIP_NAME_TWICE = 37,
    STRIP_TOO_MANY_ITEMS = 38,
    STRIP_RING_OF_CALLS = 39,
    STRIP_NOT_PLANED = 40,
    STRIP_NOT_DRAWN = 41,
    STRIP_PHASE_TOO_LARGE = 42,
    STRIP_NO_SUCH_ITEM = 43
};

/*
 * The totals of a morning sheet: word 0 counts the accepted scripts, word r those refused under r, word STRIP_KIND_WORD + k the node
 * records of kind k from 0 to 14 in accepted scripts, the last word their keyframe entries.
 */
#define STRIP_TOTALS_WORDS 60
#define STRIP_KIND_WORD 44
#define STRIP_ENTRIES_WORD 59

/*
 * Reads a text into a sheet. Accepted: strip_sheet_length, strip_records and strip_rounded, how many of the written numbers are
 * stored as another f32 than what is written. Refused: strip_value is the place in the text.
 * Afterwards scratch is all zero, and the sheet zero past its length, or everywhere on a refusal; but refusals 1 and 16 leave both
 * as they were.
 */
uint64_t strip_read(const uint8_t *text, size_t text_length, uint16_t *scratch, size_t scratch_length, uint8_t *sheet,
                    size_t sheet_length);

/*
 * Checks a sheet, lent up to the length that reading gave, under a list of colours. Refused: strip_value is the record's ordinal, for
 * 2 a place in the text, for 1, 36 and 20, in this order, it is 0; 36 is for a list other than the two.
 */
uint64_t strip_check(const uint8_t *text, size_t text_length, const uint8_t *sheet, size_t sheet_length, uint32_t list);

/*
 * The colour of a string under the second list: a name in letters of any case, or `#` and 3, 4, 6 or 8 hexadecimal digits. Accepted:
 * strip_value is red times 2^24 plus green times 2^16 plus blue times 2^8 plus alpha, 255 where none is written. Refused: 25 at 0.
 */
uint64_t strip_color(const uint8_t *string, size_t length);

/*
 * Overwrites a sheet with one that has triangle where it had the retired waveform noise, and every other byte as it was. Refused as
 * strip_check refuses, with 1, 2 or 20, and then the sheet is as it was.
 */
uint64_t strip_convert(const uint8_t *text, size_t text_length, uint8_t *sheet, size_t sheet_length);

/*
 * Writes the line of the record with an ordinal, the head being 0. Accepted: strip_value is the line's length, its LF included; past
 * it the output is as it was. Refused: strip_value is the ordinal, for 2 a place in the text, for 1 and 20 it is 0; the output is as
 * it was. A record of n bytes needs 2n + 7 bytes of output.
 */
uint64_t strip_line(const uint8_t *text, size_t text_length, const uint8_t *sheet, size_t sheet_length, uint32_t ordinal,
                    uint8_t *output, size_t output_length);

/*
 * Writes a fresh script from a text and its sheet: one that strip_read gives the same tree for, its starts apart. Accepted: strip_value
 * is the script's length; past it the buffer is zero. Refused, with the buffer all zero: what strip_check refuses, as it does; then 34
 * if no text without an exponent reads to the tree, which a sheet that strip_read gave for such a text cannot bring about; then 35 if the
 * script exceeds STRIP_TEXT_BYTES or the buffer, both at 0.
 */
uint64_t strip_write(const uint8_t *text, size_t text_length, const uint8_t *sheet, size_t sheet_length, uint8_t *out,
                     size_t out_length, uint32_t list);

/*
 * Writes the planed form of a sheet, as long as the sheet: the numbers of its frames, each time and each value that is no array, are taken
 * out; what remains comes first, then the numbers as four planes, all their first bytes to all their fourth. Accepted: strip_value is the
 * length; past it the output is as it was. Refused, with the output as it was: 1, 2 and 20 as strip_check does; then 32 at 0.
 */
uint64_t strip_plane(const uint8_t *text, size_t text_length, const uint8_t *sheet, size_t sheet_length, uint8_t *out, size_t out_length);

/*
 * Writes the sheet that strip_plane gives some bytes for. Accepted: strip_value is the length; past it the output is as it was. Refused,
 * with the output as it was: 1 and 2 as strip_check does; then 40 at 0 if no sheet for the text planes to the bytes; then 32 at 0.
 */
uint64_t strip_unplane(const uint8_t *text, size_t text_length, const uint8_t *planed, size_t planed_length, uint8_t *out,
                       size_t out_length);

/*
 * Reads and checks a text, and writes at the front of a page what the program prints for it: a line for each record, then
 * `accept N`; or `refuse R at P`; `list` is checking's, and the program's is STRIP_RUST_COLORS. Accepted: strip_value is the length of
 * what is written; past it the page is as it was, and scratch and sheet are as strip_read leaves them. A page of fewer than
 * STRIP_PAGE_BYTES is refused with 32 at 0, and nothing is touched.
 */
uint64_t strip_print(const uint8_t *text, size_t text_length, uint16_t *scratch, size_t scratch_length, uint8_t *sheet,
                     size_t sheet_length, uint8_t *page, size_t page_length, uint32_t list);

/*
 * Reads and checks a text, and counts it in totals. Counted: strip_script_number is 0 for an accepted script, or the number of its
 * refusal, with its place in strip_value; scratch and sheet are as strip_read leaves them. Totals of 4,096 scripts, or with a figure
 * above 268,431,360, are refused with 33 at 0 before all else, and nothing is touched. `list` is checking's.
 */
uint64_t strip_feed(uint32_t totals[STRIP_TOTALS_WORDS], const uint8_t *text, size_t text_length, uint16_t *scratch,
                    size_t scratch_length, uint8_t *sheet, size_t sheet_length, uint32_t list);

/*
 * A mean over totals as a fraction in lowest terms: of the node records of an accepted script where `which` is 0, else of the entries
 * of a keyframe track. strip_value is 1, with numerator and denominator in `out`; or 0 where there is no such script or track, and
 * `out` is as it was. Totals with a figure above 268,431,360 are refused with 33 at 0.
 */
uint64_t strip_mean(const uint32_t totals[STRIP_TOTALS_WORDS], uint32_t which, uint32_t out[2]);

/*
 * Looks a name up in the store's book, then in the chain's. A book is a text of `name = { nodes }` items, none the empty text. Accepted:
 * strip_body_book is the book that has it, 0 the store's and 1 the chain's; its body, what stands between its braces, is the part of
 * that book from strip_body_start on, of strip_body_length bytes. Refused, the store's book wholly before the chain's, both before the
 * name is looked for: a book's 1 to 13 and 15 at a place in it, as strip_read refuses a text; then 37 and 38; 43 last if neither book
 * has the name; these three at 0.
 */
uint64_t strip_lookup(const uint8_t *store, size_t store_length, const uint8_t *chain, size_t chain_length, const uint8_t *name,
                      size_t name_length);

/*
 * Lists the ordinals of a book's items, from 0, one byte each, so that each stands behind all that it calls, the first by place among
 * those free; a `preset` node with an item's name calls it. Accepted: strip_value is the count of items; past them the output is as it
 * was. Refused, with the output as it was: what strip_lookup refuses of a book; then 39 if a chain of calls comes round to its start;
 * then 32 if the output is shorter than the list; both at 0. STRIP_ITEM_LIMIT bytes are enough.
 */
uint64_t strip_order(const uint8_t *book, size_t book_length, uint8_t *out, size_t out_length);

/*
 * Draws one period of a waveform into the first STRIP_WAVE_HEIGHTS heights, from -32,767 to 32,767. The phase is in 256ths of the period:
 * the first height is that of so many steps on. Accepted: the answer is 0; heights behind them are as they were. Refused, with all of them
 * as they were, at 0: 41 for a kind that is not one of the four above, as noise, which is 4; then 42 for a phase of 256 or more; then 32
 * for fewer heights.
 */
uint64_t strip_wave(uint32_t kind, uint32_t phase, int16_t *heights, size_t height_count);

/* The parts of an answer. */
static inline enum strip_refusal strip_number(uint64_t answer) { return (enum strip_refusal)(answer >> 56); }
static inline uint32_t strip_value(uint64_t answer) { return (uint32_t)answer; }
static inline uint32_t strip_sheet_length(uint64_t answer) { return (uint32_t)(answer & 0xFFFFFF); }
static inline uint32_t strip_records(uint64_t answer) { return (uint32_t)(answer >> 24 & 0xFFFF); }
static inline uint32_t strip_rounded(uint64_t answer) { return (uint32_t)(answer >> 40 & 0xFFFF); }

/* Of strip_lookup. */
static inline uint32_t strip_body_length(uint64_t answer) { return (uint32_t)(answer & 0xFFFFFF); }
static inline uint32_t strip_body_start(uint64_t answer) { return (uint32_t)(answer >> 24 & 0xFFFFFF); }
static inline uint32_t strip_body_book(uint64_t answer) { return (uint32_t)(answer >> 48 & 0xFF); }

/* Of strip_feed: the number of a refused script, 0 for an accepted one. */
static inline enum strip_refusal strip_script_number(uint64_t answer) { return (enum strip_refusal)(answer >> 32 & 0xFF); }

#ifdef __cplusplus
}
#endif

#endif
