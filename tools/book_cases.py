#!/usr/bin/env python3
"""Lookups in books and listings of them, with their answers by tools/book_model.py, which goes by document 02 (i). What reading answers to
a body alone is the Rust's stored answer (oracle/answers), or follows from such by 01's grammar. Run it from the repository's root.

  book_cases.py --store             write the stored cases of the kind `book`: `00`, the store's book, the chain's and a name, in
                                    hexadecimal with tabs between, for a lookup; `01`, a book and the output's length in two bytes for a
                                    listing. An answer is `store START SIZE BODY`, `chain START SIZE BODY` or `refuse R at P`; of a
                                    listing `list N` or `refuse R at P`, and the output afterwards, which is lent full of 07
  book_cases.py --write C A         write these cases and their answers to two files
  book_cases.py --stored --lib A.a  run them through strip_lookup and strip_order of an archive, and say where the answers differ
  book_cases.py N SEED --lib A.a    N generated books, good and damaged, with lookups and listings. A body that damage made is answered
                                    by strip_read of the archive
  book_cases.py bodies N SEED --lib A.a
                                    N generated good books: whether the body that a lookup lends is read, alone, to the item's nodes
  book_cases.py --stack --lib A.a   the bytes of stack that a lookup, a listing and a reading touch, at most, over the stored cases and the
                                    stored scripts inside 16 containers
"""
import random
import subprocess
import sys
import tempfile
from collections import Counter

import back_writer as writer
import book_model as model
from archive import compiled, without_archive
from book_model import Refused

KIND = "book"
LENT = b"\7"


def find(store, chain, name):
    """A lookup, as a case."""
    return store, chain, name


def order(text, room):
    """A listing, as a case."""
    return text, room


def asked(case):
    if len(case) == 3:
        return "\t".join(["00", *(part.hex().upper() for part in case)])
    return f"01\t{case[0].hex().upper()}\t{case[1]:04X}"


def wanted(case, read):
    if len(case) == 3:
        return model.lookup(*case, read)
    answer, out = model.listing(case[0], LENT * case[1], read)
    return f"{answer} {out.hex().upper()}"


# ---- bodies whose answers are known


class Reader:
    """What reading answers to a body: the stored answers of the Rust, and those that follow."""

    def __init__(self):
        self.known = model.stored_answers()
        self.known[b""] = []
        lexed = [text for text, nodes in self.known.items() if len(text) < 300 and self.is_lexed(text)]
        self.good = [text for text in lexed if not isinstance(self.known[text], Refused)]
        self.bad = [text for text in lexed if isinstance(self.known[text], Refused)]

    def is_lexed(self, text):
        refused = self.known[text]
        return not isinstance(refused, Refused) or refused.args[0] > 5

    def __call__(self, body):
        return self.known[body]

    def add(self, body, nodes):
        self.known[body] = nodes
        return body

    def join(self, first, second):
        """Two scripts, one after the other. The first is accepted; a `;` ends its last node."""
        nodes = self.known[second]
        if isinstance(nodes, Refused):
            nodes = Refused(nodes.args[0], nodes.args[1] + len(first) + 1)
        else:
            nodes = self.known[first] + nodes
        return self.add(first + b";" + second, nodes)

    def blanks(self, before, body, after):
        """A body with blanks around it. The text's end, behind them, may be where a refusal stands."""
        nodes = self.known[body]
        if isinstance(nodes, Refused):
            number, place = nodes.args
            nodes = Refused(number, len(before) + place + (len(after) if place == len(body) else 0))
        return self.add(before + body + after, nodes)

    def preset(self, name):
        return self.add(b"preset " + name, [("preset", {"name": name, "duration": None, "easing": None})])

    def container(self, word, body):
        return self.add(word + b"{" + body + b"}", [(word.decode(), {"nodes": self.known[body]})])

    def presets(self, *names):
        body = self.preset(names[0])
        for name in names[1:]:
            body = self.join(body, self.preset(name))
        return body

    def nested(self, depth, body):
        for i in range(depth):
            body = self.container([b"sequence", b"parallel"][i % 2], body)
        return body


def item(name, body=b""):
    return name + b"={" + body + b"}"


def text_of(*made, between=b" "):
    return between.join(made)


# ---- the stored cases


def decided():
    """The places and answers that are written in the decisions on 02 (i)."""
    yield order(b"a={};b={}", 4), "refuse 6 at 4 07070707"
    yield order(b"a=>{}", 1), "refuse 6 at 2 07"
    yield order(b"loop={}", 1), "refuse 6 at 0 07"
    yield order(b"tween={}", 1), "list 1 00"
    yield find(b"a={}", b"#", b"a"), "refuse 2 at 0"
    yield order(b"a={preset c} b={} c={}", 3), "list 3 010200"
    yield find(b"a={}", b"", b"a"), "store 3 0 "
    yield find(b"a={ \t}", b"", b"a"), "store 3 2 2009"
    yield find(b"", b"", b""), "refuse 43 at 0"
    yield find(b"a={}", b"a={}", b""), "refuse 43 at 0"
    yield find(b"a={}", b"A={}", b"A"), "chain 3 0 "
    yield order(b"a={preset a}", 1), "refuse 39 at 0 07"
    yield order(b"", 0), "list 0 "
    yield order(b"a={preset b}", 0), "refuse 32 at 0 "


def grammar_cases(reader):
    """The forms of an item, and each refusal inside a body."""
    for text in (b"a", b"a=", b"a={", b"a={}}", b"a={} b", b"a={} b=", b"a={} =", b"={}", b"a{}", b"a:{}", b"a=()", b"a=[]", b"a= b={}",
                 b"1={}", b'"a"={}', b"_={}", b"__={}", b"true={}", b"self={}", b"try={}", b"union={}", b"a=={}", b"a={} {}", b";a={}",
                 b"a={},b={}", b"a = \n{ }\tb\r=\n{\n}\n", b"a={}b={}c={}", b"(a={})", b"a=({})", b"a={}.", b"a={} b=>{}", b"a::{}"):
        reader.blanks(b" ", b"", b"")
        reader.blanks(b"\n", b"", b"")
        yield order(text, 3)
        yield find(text, b"a={}", b"a")
    for number in (6, 7, 8, 9, 10, 11, 12, 13, 15):
        short = sorted((body for body in reader.bad if reader(body).args[0] == number), key=lambda body: (len(body), body))
        for body in short[:3]:
            body = reader.blanks(b" ", body, b"\n")
            yield order(text_of(item(b"a"), item(b"b", body)), 2)
            yield find(b"", text_of(item(b"a", body), item(b"b")), b"b")
    for body in (b"#", b"1.", b'"', b"a\"", b"1e005", b"1" * 41, b"0." + b"1" * 41, b"(", b")", b"(]", b"\x80", b"\x00", b"'"):
        yield order(text_of(item(b"a"), item(b"b", body)), 2)
        yield find(item(b"a", body), b"", b"a")


def leftover_cases(reader):
    """13 is due when all items are read: behind the grammar's refusals of later items, before 37 and 38."""
    bodies = sorted((body for body in reader.bad if reader(body).args[0] == 13), key=lambda body: (len(body), body))[:2]
    for body in bodies:
        left = item(b"a", body)
        yield order(text_of(left, b"b"), 1)
        yield order(text_of(left, item(b"b", bodies[1])), 1)
        yield order(text_of(left, item(b"a")), 1)
        yield order(text_of(left, *many(129)), 1)
        yield find(left, b"#", b"a")
        yield find(item(b"a"), left, b"a")


def nesting_cases(reader):
    """An item's braces are a delimiter and no container."""
    for depth in (16, 17):
        body = reader.nested(depth, b"")
        if depth == 17:
            reader.add(body, Refused(12, body.rindex(b"{")))
        yield order(item(b"a", body), 1)
    for depth in (63, 64):
        body = b"(" * depth + b")" * depth
        reader.add(body, Refused(6, 0))
        yield order(item(b"a", body), 1)
    reader.add(b" " * 16380, [])
    yield order(item(b"a", b" " * 16380), 1)
    yield order(item(b"a", b" " * 16381), 1)


def many(count, first=0):
    return [item(b"n%d" % i) for i in range(first, first + count)]


def limit_cases():
    """Items and names at the limit, and far past it."""
    for count in (127, 128, 129, 130):
        book = text_of(*many(count))
        yield order(book, 130)
        yield find(book, b"", b"n%d" % (count - 1))
        yield find(b"", book, b"n0")
    yield order(text_of(*many(128)), 127)
    yield order(text_of(*many(128), item(b"n0")), 130)
    yield order(text_of(*many(129), item(b"n128")), 130)
    yield order(text_of(*many(140), item(b"n139")), 130)
    yield order(text_of(item(b"a"), item(b"a")), 2)
    yield order(text_of(item(b"a"), item(b"b"), item(b"A"), item(b"ab"), item(b"b")), 5)
    yield order(text_of(item(b"a"), item(b"A"), item(b"ab"), item(b"a_"), item(b"_a")), 5)
    names = [b"%c%c%c" % (a, b, c) for a in b"abcdefghijklmno" for b in b"abcdefghijklmno" for c in b"abcdefghijklmno"]
    full = text_of(*map(item, names), between=b"")[: 6 * 2730]
    yield order(full, 1)
    yield order(full[:-6] + item(names[2728]), 1)


def ring(reader, count, last):
    """Items that each call the next one; the last calls an item, or none."""
    bodies = [reader.preset(b"n%d" % (i + 1)) for i in range(count - 1)] + [reader.preset(last)]
    return text_of(*(item(b"n%d" % i, body) for i, body in enumerate(bodies)))


def call_cases(reader):
    """Calls and rings."""
    for count in (1, 2, 3, 128):
        for last in (b"n0", b"n%d" % (count - 1), b"n%d" % (count // 2), b"other"):
            yield order(ring(reader, count, last), 128)
        yield order(ring(reader, count, b"n0"), 0)
        yield order(ring(reader, count, b"other"), count - 1)
        yield order(ring(reader, count, b"other"), count)
        yield find(ring(reader, count, b"n0"), b"", b"n%d" % (count - 1))
    graphs = ([[1], [2], [0], []], [[3], [2], [], [1]], [[], [0], [0, 1], [0, 1, 2]], [[1, 2, 3], [2, 3], [3], []], [[2], [3], [], []],
              [[1], [], [3], [2]], [[], [], [], [3]], [[3, 3], [], [1], [2, 1]])
    for graph in graphs:
        bodies = [reader.presets(*(b"n%d" % j for j in own)) if own else b"" for own in graph]
        for depth in (0, 2, 16):
            deep = [reader.nested(depth, body) if body else body for body in bodies]
            yield order(text_of(*(item(b"n%d" % i, body) for i, body in enumerate(deep))), 6)
    for text in reader.good:
        names = model.called(reader(text))
        for name in sorted(names)[:1] if len(text) < 60 else ():
            yield order(text_of(item(b"zz", text), item(name)), 2)
    springs = [text for text in reader.good if any("preset" in f and f["preset"] for kind, f in reader(text) if kind == "spring")]
    for text in sorted(springs, key=lambda text: (len(text), text))[:4]:
        word = next(f["preset"][0].encode() for kind, f in reader(text) if kind == "spring" and f["preset"])
        yield order(item(word, text), 1)


def lookup_cases(reader):
    """Which book has the name, and which is refused first."""
    one, two = item(b"a", reader.preset(b"x")), item(b"a", reader.presets(b"y", b"a"))
    other, twice, many_items, foreign = item(b"b"), text_of(item(b"a"), item(b"a")), text_of(*many(129)), b"a={} #"
    books = [b"", one, text_of(other, two), text_of(one, other, item(b"c")), twice, many_items, foreign, b"a", item(b"A", b" \n")]
    reader.add(b" \n", [])
    for store in books:
        for chain in books:
            yield find(store, chain, b"a")
    for name in (b"b", b"c", b"A", b"aa", b" a", b"a ", b"a={}", b"\x00", b"\xff\xfe", b"", b"a\"", b"preset", b"x", b"y"):
        yield find(books[3], books[2], name)
        yield find(books[8], books[3], name)


def pool_cases(reader, count, seed):
    """Books of bodies that the Rust has answered."""
    pick = random.Random(seed)
    for _ in range(count):
        book = Books(pick, reader, 15).book()
        if len(book) < 700:
            names = [name for name, *_ in items_or_none(book)]
            yield order(book, pick.choice([0, 1, 2, 3, 8]))
            yield find(book, b"", pick.choice(names or Books.NAMES))


def stored():
    """The cases, each once, and their answers."""
    reader = Reader()
    cases = []
    for case, answer in decided():
        for body in model.bodies(case[0]) if len(case) == 2 else ():
            known_presets(reader, body)
        reader.blanks(b" \t", b"", b"")
        assert wanted(case, reader) == answer, (case, answer)
        cases.append(case)
    parts = (grammar_cases(reader), leftover_cases(reader), nesting_cases(reader), limit_cases(), call_cases(reader), lookup_cases(reader))
    for part in (*parts, pool_cases(reader, 160, 1)):
        cases += part
    cases = list(dict.fromkeys(cases))
    return cases, [wanted(case, reader) for case in cases]


def known_presets(reader, body):
    if body.startswith(b"preset "):
        reader.preset(body.removeprefix(b"preset "))


# ---- generated books


class Books:
    """Books of a generator's choice: bodies of presets with the names of items, and of what the Rust has answered; some of them refused."""

    NAMES = [bytes([b]) for b in b"abcdefghABC"] + b"fade_in shake x1 _x tween preset loop_ bounce_in nobody".split()
    BLANKS = [b"", b"", b" ", b"\n", b"\t \r\n"]

    def __init__(self, pick, reader, bad=0):
        self.pick, self.reader, self.bad = pick, reader, bad

    def body(self, names):
        pick, reader = self.pick, self.reader
        kind = pick.randrange(100)
        if kind < self.bad:
            body = pick.choice(reader.bad)
        elif kind < 40:
            body = pick.choice(reader.good)
        elif kind < 50:
            body = b""
        else:
            body = reader.presets(*pick.choices(names, k=pick.choice([1, 1, 2, 3])))
            body = reader.nested(pick.choice([0, 0, 1, 3]), body)
        if pick.randrange(4) == 0:
            body = reader.join(pick.choice([*(pick.sample(reader.good, 2)), reader.preset(pick.choice(names))]), body)
        return reader.blanks(pick.choice(self.BLANKS), body, pick.choice(self.BLANKS))

    def names(self):
        pick, kind = self.pick, self.pick.randrange(60)
        if kind == 0:
            return [b"n%d" % i for i in pick.sample(range(300), pick.choice([100, 127, 128, 129, 135]))]
        names = pick.sample(self.NAMES, pick.choice([0, 1, 1, 2, 3, 4, 5, 8]))
        return names + names[:1] if self.bad and kind == 1 else names

    def book(self):
        names = self.names()
        few = len(names) < 20
        # an item calls later ones more often than any, or there would be few books without a ring
        bodies = [self.body(names[i + 1 :] + [b"nobody"] if self.pick.randrange(8) else names) if few else b"" for i in range(len(names))]
        blank = lambda: self.pick.choice(self.BLANKS)
        made = [name + blank() + b"=" + blank() + b"{" + body + b"}" for name, body in zip(names, bodies, strict=True)]
        return blank() + b"".join(one + blank() for one in made)


def damaged(pick, book):
    """A book with a few of its bytes changed, or cut."""
    book = bytearray(book)
    for _ in range(pick.choice([1, 1, 1, 2, 3])):
        at = pick.randrange(len(book) + 1)
        kind = pick.randrange(5)
        if kind == 0:
            del book[at : at + pick.choice([1, 1, 2, 5])]
        elif kind == 1:
            book[at:at] = pick.choice([b";", b"=", b"{", b"}", b"{}", b",", b" a ", b"a={}", b">", b"(", b")", b"0", b'"', b"#", b"loop"])
        elif kind == 2:
            book[at : at + 1] = bytes([pick.randrange(256)])
        elif kind == 3:
            end = min(len(book), at + pick.randrange(12))
            book[at:at] = book[at:end]
        elif pick.randrange(4) == 0:
            del book[at:]
    return bytes(book)


# ---- through an archive

ANSWERER = r"""
#include <stdint.h>
#include <stdio.h>
#include <string.h>
uint64_t strip_read(const uint8_t *, size_t, uint16_t *, size_t, uint8_t *, size_t);
uint64_t strip_lookup(const uint8_t *, size_t, const uint8_t *, size_t, const uint8_t *, size_t);
uint64_t strip_order(const uint8_t *, size_t, uint8_t *, size_t);
static uint16_t scratch[16384];
static uint8_t field[3][65536], sheet[49152], out[65536 + 64];
static char line[524288];
static int digit(char c) { return c <= '9' ? c - '0' : (c & 7) + 9; }
static size_t unhex(const char *s, uint8_t *to) {
    size_t n = 0;
    for (; s[2 * n] > ' '; n++) to[n] = digit(s[2 * n]) * 16 + digit(s[2 * n + 1]);
    return n;
}
static void bytes(const uint8_t *s, size_t n) { for (size_t i = 0; i < n; i++) printf("%02X", s[i]); }
static void refusal(uint64_t a) { printf("refuse %u at %u", (unsigned)(a >> 56), (unsigned)a); }
static void read_text(const uint8_t *text, size_t n) {
    uint64_t a = strip_read(text, n, scratch, 16384, sheet, sizeof sheet);
    if (a >> 56) refusal(a);
    else bytes(sheet, a & 0xFFFFFF);
}
static void lookup(const size_t *n, int read) {
    uint64_t a = strip_lookup(field[0], n[0], field[1], n[1], field[2], n[2]);
    if (a >> 56) { refusal(a); return; }
    unsigned which = a >> 48 & 255, start = a >> 24 & 0xFFFFFF, size = a & 0xFFFFFF;
    printf("%s %u %u ", which ? "chain" : "store", start, size);
    if (start + size > n[which]) printf("outside the book");
    else if (read) read_text(field[which] + start, size);
    else bytes(field[which] + start, size);
}
static void order(size_t n, size_t room) {
    int past = 0;
    memset(out, 7, sizeof out);
    uint64_t a = strip_order(field[0], n, out, room);
    if (a >> 56) refusal(a);
    else printf("list %u", (unsigned)a);
    putchar(' ');
    bytes(out, room);
    for (size_t i = room; i < room + 64; i++) past |= out[i] != 7;
    if (past) printf(", written past the output");
}
int main(void) {
    while (fgets(line, sizeof line, stdin)) {
        size_t n[3] = {0, 0, 0};
        char *at = line + 2;
        for (int i = 0; i < 3 && *at == '\t'; i++) {
            n[i] = unhex(at + 1, field[i]);
            at += 1 + 2 * n[i];
        }
        switch (line[1]) {
            case '0': lookup(n, 0); break;
            case '1': order(n[0], field[1][0] * 256 + field[1][1]); break;
            case '2': read_text(field[0], n[0]); break;
            case '3': lookup(n, 1); break;
        }
        puts("");
    }
}
"""


# each call on a thread whose stack is full of one byte: how far down another stands afterwards, less what a thread that calls nothing needs
MEASURER = r"""
#include <pthread.h>
#include <stdint.h>
#include <stdio.h>
#include <string.h>
uint64_t strip_read(const uint8_t *, size_t, uint16_t *, size_t, uint8_t *, size_t);
uint64_t strip_lookup(const uint8_t *, size_t, const uint8_t *, size_t, const uint8_t *, size_t);
uint64_t strip_order(const uint8_t *, size_t, uint8_t *, size_t);
enum { STACK = 1 << 20 };
static uint8_t stack[STACK] __attribute__((aligned(4096))), field[3][65536], sheet[49152], out[65536];
static uint16_t scratch[16384];
static char line[524288];
static size_t n[3];
static int kind;
static int digit(char c) { return c <= '9' ? c - '0' : (c & 7) + 9; }
static size_t unhex(const char *s, uint8_t *to) {
    size_t k = 0;
    for (; s[2 * k] > ' '; k++) to[k] = digit(s[2 * k]) * 16 + digit(s[2 * k + 1]);
    return k;
}
static void *call(void *unused) {
    if (kind == 0) strip_lookup(field[0], n[0], field[1], n[1], field[2], n[2]);
    if (kind == 1) strip_order(field[0], n[0], out, sizeof out);
    if (kind == 2) strip_read(field[0], n[0], scratch, 16384, sheet, sizeof sheet);
    return unused;
}
static size_t touched(int which) {
    pthread_t thread;
    pthread_attr_t attributes;
    size_t at = 0;
    kind = which;
    memset(stack, 0x5A, STACK);
    pthread_attr_init(&attributes);
    pthread_attr_setstack(&attributes, stack, STACK);
    if (pthread_create(&thread, &attributes, call, 0) || pthread_join(thread, 0)) return 0;
    while (at < STACK && stack[at] == 0x5A) at++;
    return STACK - at;
}
int main(void) {
    size_t most[3] = {0, 0, 0}, idle = touched(3);
    while (fgets(line, sizeof line, stdin)) {
        char *at = line + 2;
        for (int i = 0; i < 3; i++) n[i] = 0;
        for (int i = 0; i < 3 && *at == '\t'; i++) {
            n[i] = unhex(at + 1, field[i]);
            at += 1 + 2 * n[i];
        }
        size_t used = touched(line[1] - '0') - idle;
        if (used > most[line[1] - '0']) most[line[1] - '0'] = used;
    }
    printf("lookup %zu, listing %zu, reading %zu bytes of stack\n", most[0], most[1], most[2]);
}
"""


def run_stack(archive, folder):
    reader = Reader()
    deep = [reader.nested(16, text) for text in reader.good]
    lines = [asked(case) for case in stored()[0]]
    lines += [asked(case) for text in deep for case in (find(item(b"a", text), item(b"a", text), b"a"), order(item(b"a", text), 1))]
    lines += [f"02\t{text.hex()}" for text in deep]
    open(f"{folder}/lines", "w").writelines(line + "\n" for line in lines)
    program = compiled(MEASURER, archive, folder)
    print(len(lines), "calls: ", end="", flush=True)
    subprocess.run([program], stdin=open(f"{folder}/lines"), check=True)


class Library:
    """An archive's functions, which answer lines."""

    def __init__(self, archive, folder):
        self.program = compiled(ANSWERER, archive, folder)

    def answer(self, lines):
        text = "".join(line + "\n" for line in lines)
        done = subprocess.run([self.program], input=text, capture_output=True, text=True, check=True)
        return done.stdout.split("\n")[:-1]

    def read(self, texts):
        """For each text its nodes, or its refusal."""
        for text, answer in zip(texts, self.answer(f"02\t{text.hex()}" for text in texts), strict=True):
            words = answer.split()
            refused = words[:1] == ["refuse"]
            yield text, Refused(int(words[1]), int(words[3])) if refused else writer.decode(text, bytes.fromhex(answer))[0]


class Report:
    """How often each answer came up, and what differs."""

    def __init__(self):
        self.wrong, self.counts = 0, Counter()

    def compare(self, case, want, got):
        self.counts[want.split(" at ")[0] if want.startswith("refuse") else want.split()[0]] += 1
        if want != got:
            self.wrong += 1
            if self.wrong <= 10:
                print("ANSWERS DIFFER", *(str(part)[:600] for part in (case, f"wanted {want}", f"got    {got}")), sep="\n    ")

    def end(self, what):
        print(what, {key: self.counts[key] for key in sorted(self.counts)}, f"{self.wrong} differ", sep="; ")
        sys.exit(bool(self.wrong))


def run_stored(library):
    report = Report()
    cases, answers = stored()
    for case, want, got in zip(cases, answers, library.answer(map(asked, cases)), strict=True):
        report.compare(case, want, got)
    report.end(f"{len(cases)} stored cases")


def cases_of(pick, book, other):
    """A listing and lookups of a book."""
    found = [name for name, *_ in items_or_none(book)]
    yield order(book, pick.choice([0, 1, 2, 5, 20, 128, 200, len(found), max(0, len(found) - 1)]))
    name = pick.choice(found or [b"a"]) if pick.randrange(4) else pick.choice([*Books.NAMES, b"", b"{}"])
    yield find(book, other, name) if pick.randrange(2) else find(other, book, name)


def items_or_none(book):
    try:
        return model.items(book)[0]
    except Refused:
        return []


def run(library, count, seed):
    pick, report, unknown, done = random.Random(seed), Report(), 0, 0
    while done < count:
        reader = Reader()
        made = [Books(pick, reader, pick.choice([0, 0, 8])).book() for _ in range(min(1000, count - done))]
        made = [damaged(pick, book) if pick.randrange(2) else book for book in made]
        made = [book + b" " * pick.choice([16384 - len(book), 16385 - len(book)]) if pick.randrange(200) == 0 else book for book in made]
        new = list(dict.fromkeys(body for book in made for body in model.bodies(book) if body not in reader.known))
        unknown += len(new)
        reader.known.update(library.read(new))
        cases = [case for book in made for case in cases_of(pick, book, pick.choice(made))]
        for case, got in zip(cases, library.answer(map(asked, cases)), strict=True):
            report.compare(case, wanted(case, reader), got)
        done += len(made)
    report.end(f"{done} generated books, {unknown} bodies answered by strip_read")


def run_bodies(library, count, seed):
    pick, report, done, read = random.Random(seed), Report(), 0, 0
    while done < count:
        reader = Reader()
        made = [Books(pick, reader).book() for _ in range(min(1000, count - done))]
        found = [(book, one) for book in made for one in model.items(book)[0][:20]]
        lines = [asked(find(book, b"", one[0]) if i % 2 else find(b"", book, one[0])) for i, (book, one) in enumerate(found)]
        for i, ((book, one), got) in enumerate(zip(found, library.answer("03" + line[2:] for line in lines), strict=True)):
            compare_body(report, reader, book, one, "store" if i % 2 else "chain", got)
        done, read = done + len(made), read + len(found)
    report.end(f"{done} generated good books, {read} bodies read alone")


def compare_body(report, reader, book, one, which, got):
    name, start, end = one
    if len(items_or_none(book)) > 128:
        return report.compare((book, name), "refuse 38 at 0", got)
    *words, sheet = got.split(" ")
    nodes = None if words[:1] == ["refuse"] else writer.decode(book[start:end], bytes.fromhex(sheet))[0]
    same = nodes == reader(book[start:end])
    report.compare((book, name), f"{which} {start} {end - start} True", " ".join([*words, str(same)]))


def main():
    args = sys.argv[1:]
    if args == ["--store"]:
        import stored as kept

        return kept.store(KIND, *(lines if i else map(asked, lines) for i, lines in enumerate(stored())))
    if args[:1] == ["--write"]:
        cases, answers = stored()
        for path, lines in zip(args[1:], (map(asked, cases), answers), strict=True):
            open(path, "w").writelines(line + "\n" for line in lines)
        return print(len(cases), "cases", dict(sorted(Counter(a.split(" at ")[0] if a[0] == "r" else a.split()[0] for a in answers).items())))
    found = without_archive(args)
    if found is None:
        sys.exit(__doc__)
    archive, args = found
    with tempfile.TemporaryDirectory() as folder:
        if args == ["--stack"]:
            return run_stack(archive, folder)
        library = Library(archive, folder)
        if args == ["--stored"]:
            run_stored(library)
        elif args[0] == "bodies":
            run_bodies(library, int(args[1]), int(args[2]))
        else:
            run(library, int(args[0]), int(args[1]))


if __name__ == "__main__":
    main()
