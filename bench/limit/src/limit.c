// A reader written by hand, as the limit of what reading can cost: the sheet of strip_read for the benchmark's scripts of tween, spring,
// color and keyframes nodes in sequence, parallel and stagger containers, with the fields that those scripts have. Any other script is
// not covered, and it judges no text by the text rules. Nothing is proved of it: it is measured, and used nowhere.
#include <stddef.h>
#include <stdint.h>
#include <string.h>

enum { BLANK = 1, NAME = 2, DIGIT = 4 };
enum { TWEEN = 0, SPRING = 1, KEYFRAMES = 2, SEQUENCE = 3, PARALLEL = 4, STAGGER = 6, COLOR = 10 };

// The answer where a script is not covered: refusal 255.
#define NOT_COVERED (255ull << 56)

typedef const uint8_t *Place;

typedef struct {
    Place text, end;
    uint8_t *out;
    uint32_t records, rounded;
    int covered;
} Reader;

static uint8_t class[256];

__attribute__((constructor)) static void fill_class(void) {
    class[' '] = class['\t'] = class['\n'] = class['\r'] = BLANK;
    for (int c = 'a'; c <= 'z'; c++) class[c] = class[c - 32] = NAME;
    class['_'] = NAME;
    for (int c = '0'; c <= '9'; c++) class[c] = NAME | DIGIT;
}

// ---- bytes

static inline uint64_t eight(Place p) {
    uint64_t x;
    memcpy(&x, p, 8);
    return x;
}

static inline void put2(uint8_t *out, uint32_t v) {
    out[0] = v >> 8;
    out[1] = v;
}

static inline void put4(uint8_t *out, uint32_t v) {
    v = __builtin_bswap32(v);
    memcpy(out, &v, 4);
}

static inline Place blanks(Place p) {
    while (class[*p] & BLANK) p++;
    return p;
}

static inline Place uncovered(Reader *r, Place p) {
    r->covered = 0;
    return p;
}

// ---- names

// The end of a name, eight bytes at a time: the lowest of them that is no letter, digit or `_`.
static inline Place name_end(Place p) {
    const uint64_t high = 0x8080808080808080ull;
    for (;;) {
        uint64_t x = eight(p), small = x | 0x2020202020202020ull;
        uint64_t letter = (small + 0x1f1f1f1f1f1f1f1full) & ~(small + 0x0505050505050505ull);
        uint64_t digit = (x + 0x5050505050505050ull) & ~(x + 0x4646464646464646ull);
        uint64_t line = high - (x ^ 0x5f5f5f5f5f5f5f5full);
        uint64_t other = ((letter | digit | line) & high) ^ high;
        if (other) return p + (__builtin_ctzll(other) >> 3);
        p += 8;
    }
}

// The first eight bytes of a name of n, as a number.
static inline uint64_t packed(Place p, size_t n) {
    return n >= 8 ? eight(p) : eight(p) & ((1ull << 8 * n) - 1);
}

#define WORD(s) packed((Place)s "\0\0\0\0\0\0\0\0", sizeof(s) - 1)

// Whether a word is one of the keywords that these scripts might have.
static inline int is_keyword(Place p, size_t n) {
    if (n > 8) return 0;
    uint64_t w = packed(p, n);
    return w == WORD("as") || w == WORD("fn") || w == WORD("if") || w == WORD("in") || w == WORD("let") || w == WORD("loop") ||
           w == WORD("true") || w == WORD("false");
}

static inline Place name(Reader *r, Place p, uint8_t *out) {
    Place end = name_end(p);
    size_t n = end - p;
    if (!n || class[*p] & DIGIT || is_keyword(p, n)) return uncovered(r, p);
    put2(out, p - r->text);
    put2(out + 2, n);
    return end;
}

static inline Place mark(Reader *r, Place p, uint8_t b) {
    p = blanks(p);
    if (*p != b) return uncovered(r, p);
    return blanks(p + 1);
}

static inline Place arrow(Reader *r, Place p) {
    p = blanks(p);
    if (p[0] != '=' || p[1] != '>') return uncovered(r, p);
    return blanks(p + 2);
}

// ---- values

static const float TEN[10] = {1, 1e1, 1e2, 1e3, 1e4, 1e5, 1e6, 1e7, 1e8, 1e9};
static const uint32_t FIVE[10] = {1, 5, 25, 125, 625, 3125, 15625, 78125, 390625, 1953125};

// A number below 2^24 without its point, as the bits of the nearest f32; with `percent` a `%` may follow.
static inline Place number(Reader *r, Place p, uint32_t *bits, int percent) {
    uint32_t sign = 0, value = 0;
    if (*p == '-') {
        sign = 1u << 31;
        p = blanks(p + 1);
    }
    Place first = p;
    uint64_t digits = 0;
    int places = 0;
    while (class[*p] & DIGIT) digits = digits * 10 + *p++ - '0';
    if (p == first) return uncovered(r, p);
    if (*p == '.') {
        Place point = ++p;
        while (class[*p] & DIGIT) digits = digits * 10 + *p++ - '0';
        places = p - point;
        if (!places) return uncovered(r, p);
    }
    if (p - first > 18) return uncovered(r, p);
    if (*p == 's') p++;
    if (class[*p] & NAME) return uncovered(r, p);
    if (percent && *p == '%') {
        p++;
        places = 2;
    }
    if (digits >= 1u << 24 || places > 9) return uncovered(r, p);
    float f = (float)(uint32_t)digits;
    if (places) {
        f /= TEN[places];
        if ((uint32_t)digits % FIVE[places]) r->rounded++;
    }
    memcpy(&value, &f, 4);
    *bits = value | sign;
    return p;
}

static inline Place array(Reader *r, Place p) {
    uint8_t *count = r->out + 1;
    uint32_t n = 0;
    r->out[0] = 1;
    r->out += 3;
    for (p = blanks(p + 1); *p != ']'; n++) {
        uint32_t bits = 0;
        p = blanks(number(r, p, &bits, 0));
        put4(r->out, bits);
        r->out += 4;
        if (!r->covered || (*p != ',' && *p != ']')) return uncovered(r, p);
        if (*p == ',') p = blanks(p + 1);
    }
    put2(count, n);
    return p + 1;
}

static inline Place value(Reader *r, Place p) {
    if (*p == '[') return array(r, p);
    uint32_t bits = 0;
    p = number(r, p, &bits, 0);
    r->out[0] = 0;
    put4(r->out + 1, bits);
    r->out += 5;
    return p;
}

static inline Place string(Reader *r, Place p) {
    if (*p != '"') return uncovered(r, p);
    Place first = ++p;
    while (*p != '"' && *p >= ' ' && *p < 127 && *p != '\\') p++;
    if (*p != '"' || class[p[1]] & NAME) return uncovered(r, p);
    put2(r->out, first - r->text);
    put2(r->out + 2, p - first);
    r->out += 4;
    return p + 1;
}

// A name as an easing: present, named, not behind `Easing::`.
static inline Place easing(Reader *r, Place p, uint8_t *out) {
    out[0] = 1;
    out[1] = out[2] = 0;
    return name(r, p, out + 3);
}

// ---- fields

typedef struct {
    uint32_t duration;
    uint8_t timed, eased, space, preset;
    uint8_t easing[7];
} Fields;

static inline Place space(Reader *r, Place p, uint8_t *out) {
    Place end = name_end(p);
    uint64_t w = packed(p, end - p);
    if (w == WORD("linear")) *out = 0;
    else if (w == WORD("lab")) *out = 1;
    else if (w == WORD("oklch")) *out = 2;
    else return uncovered(r, p);
    return end;
}

static inline Place preset(Reader *r, Place p, uint8_t *out) {
    Place end = name_end(p);
    if (packed(p, end - p) != WORD("gentle")) return uncovered(r, p);
    *out = 1;
    return end;
}

static Place fields(Reader *r, Place p, int kind, Fields *f) {
    for (p = blanks(p); r->covered; p = blanks(p)) {
        if (*p == ';') return p + 1;
        if (*p == '}' || !*p) return p;
        if (*p == ',') {
            p++;
            continue;
        }
        Place first = p;
        p = name_end(p);
        size_t n = p - first;
        uint64_t w = packed(first, n);
        p = mark(r, p, ':');
        if (n == 8 && w == WORD("duration")) {
            p = number(r, p, &f->duration, 0);
            f->timed = 1;
        } else if (w == WORD("easing")) {
            p = easing(r, p, f->easing);
            f->eased = 1;
        } else if (kind == COLOR && w == WORD("space")) p = space(r, p, &f->space);
        else if (kind == SPRING && w == WORD("preset")) p = preset(r, p, &f->preset);
        else return uncovered(r, p);
    }
    return p;
}

// What a record has behind its values.
static void put_fields(Reader *r, int kind, const Fields *f) {
    uint8_t *out = r->out;
    if (kind == SPRING) {
        *out++ = f->preset;
        if (f->preset) *out++ = 0;
        memset(out, 0, 7);
        r->out = out + 7;
        return;
    }
    if (!f->timed) r->covered = 0;
    put4(out, f->duration);
    out += 4;
    if (kind == COLOR) *out++ = f->space;
    *out = 0;
    if (f->eased) memcpy(out, f->easing, 7);
    out += f->eased ? 7 : 1;
    if (kind == TWEEN) {
        memset(out, 0, 6);
        out += 6;
    }
    r->out = out;
}

// ---- nodes

// Kind and start of a record.
static inline void put_front(Reader *r, int kind, Place start) {
    r->out[0] = kind;
    put2(r->out + 1, start - r->text);
    r->out += 3;
    r->records++;
}

static Place moving(Reader *r, Place p, int kind) {
    Fields f = {0};
    p = name(r, p, r->out);
    r->out += 4;
    p = mark(r, p, ':');
    if (kind == COLOR) {
        p = arrow(r, string(r, p));
        p = string(r, p);
    } else {
        p = arrow(r, value(r, p));
        p = value(r, p);
    }
    p = fields(r, p, kind, &f);
    put_fields(r, kind, &f);
    return p;
}

static inline Place frame(Reader *r, Place p) {
    uint32_t bits = 0;
    p = number(r, p, &bits, 1);
    r->out[0] = p[-1] != '%';
    put4(r->out + 1, bits);
    r->out += 5;
    p = blanks(value(r, mark(r, p, ':')));
    if (class[*p] == NAME) {
        p = blanks(easing(r, p, r->out));
        r->out += 7;
    } else *r->out++ = 0;
    return p;
}

static Place track(Reader *r, Place p) {
    uint32_t n = 0;
    p = name(r, p, r->out);
    uint8_t *count = r->out + 4;
    r->out += 6;
    for (p = mark(r, p, '{'); *p != '}'; n++) {
        p = frame(r, p);
        if (!r->covered || (*p != ',' && *p != ';' && *p != '}')) return uncovered(r, p);
        if (*p != '}') p = blanks(p + 1);
    }
    put2(count, n);
    *r->out++ = 0;
    return p + 1;
}

// The one field of a stagger that is covered, and that it has no pattern.
static inline Place delay(Reader *r, Place p) {
    uint32_t bits = 0;
    Place end = name_end(p);
    if (packed(p, end - p) != WORD("delay")) return uncovered(r, p);
    p = number(r, mark(r, end, ':'), &bits, 0);
    r->out[0] = 0;
    r->out[1] = 1;
    put4(r->out + 2, bits);
    r->out += 6;
    return p;
}

static Place nodes(Reader *r, Place p, uint32_t *count);

static Place container(Reader *r, Place p, int kind) {
    if (kind == STAGGER) p = delay(r, p);
    uint8_t *count = r->out;
    uint32_t n = 0;
    r->out += 2;
    p = mark(r, p, '{');
    p = nodes(r, p, &n);
    put2(count, n);
    return *p == '}' ? p + 1 : uncovered(r, p);
}

static Place node(Reader *r, Place p) {
    Place end = name_end(p), behind = blanks(end);
    size_t n = end - p;
    uint64_t w = packed(p, n);
    int kind;
    if (w == WORD("tween")) kind = TWEEN;
    else if (w == WORD("color")) kind = COLOR;
    else if (w == WORD("spring")) kind = SPRING;
    else if (n == 9 && w == WORD("keyframe")) kind = KEYFRAMES;
    else if (w == WORD("stagger")) kind = STAGGER;
    else if (w == WORD("parallel")) kind = PARALLEL;
    else if (w == WORD("sequence")) kind = SEQUENCE;
    else return uncovered(r, p);
    put_front(r, kind, p);
    if (kind == KEYFRAMES) return track(r, behind);
    if (kind == TWEEN || kind == SPRING || kind == COLOR) return moving(r, behind, kind);
    return container(r, behind, kind);
}

// Nodes up to a `}` or the text's end.
static Place nodes(Reader *r, Place p, uint32_t *count) {
    for (p = blanks(p); r->covered && *p != '}' && p < r->end; p = blanks(p)) {
        if (*p == ';') p++;
        else {
            p = node(r, p);
            ++*count;
        }
    }
    return p;
}

// strip_read's answer and sheet, or NOT_COVERED. 16 zero bytes must stand behind the text, and the sheet have room for the encoding and 64
// bytes more; the scratch that strip_read is lent is not needed.
uint64_t limit_read(Place text, size_t n, uint8_t *sheet, size_t size) {
    Reader r = {text, text + n, sheet + 2, 0, 0, 1};
    uint32_t count = 0;
    Place p = nodes(&r, text, &count);
    if (!r.covered || p != r.end) return NOT_COVERED;
    put2(sheet, count);
    size_t length = r.out - sheet;
    memset(r.out, 0, size - length);
    return length | (uint64_t)r.records << 24 | (uint64_t)r.rounded << 40;
}
