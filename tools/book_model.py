"""Books of named scripts, by the words of document 02 (i) and of 01's text rules: what a lookup and a listing must answer. What reading
answers to a body alone comes from elsewhere: the Rust's stored answers, or a function that is handed over."""
import gzip
import re

import back_writer as writer
from back_writer import NO_NAMES, TEXT_LIMIT

ITEM_LIMIT, OPEN_LIMIT = 128, 64


class Refused(Exception):
    """A refusal's number and its place."""

    def __str__(self):
        return "refuse {} at {}".format(*self.args)


# ---- 01, "Text rules"

BLANKS = re.compile(rb"[ \t\n\r]+")
NAME = re.compile(rb"[A-Za-z_][A-Za-z0-9_]*")
NUMBER = re.compile(rb"([0-9]+)(?:\.([0-9]+))?(?:[eE][+-]?[0-9]{1,2})?s?")  # 02 (n): a third digit, or an `e` without one, then stands behind it
STRING = re.compile(rb'"[ !#-\[\]-~]*"')
MARKS, OPENERS, CLOSERS = b":;,=>.+-%", b"([{", b")]}"


def is_name_byte(b):
    return NAME.fullmatch(b"_" + b) is not None if b else False


def number_end(text, at):
    found = NUMBER.match(text, at)
    whole, point, end = found.end(1), found.group(2), found.end()
    if point is None and text[whole : whole + 1] == b"." and text[whole + 1 : whole + 2] != b"." or is_name_byte(text[end : end + 1]):
        raise Refused(2, at)
    if len(found.group(1)) > 40 or len(point or b"") > 40:
        raise Refused(3, at)
    return end


def lexeme_end(text, at):
    """Where the name, number, string or mark at a place ends. A mark is one character."""
    first = text[at : at + 1]
    if first.isdigit():
        return number_end(text, at)
    if first == b'"':
        found = STRING.match(text, at)
        if not found or is_name_byte(text[found.end() : found.end() + 1]):
            raise Refused(2, at)
        return found.end()
    found = NAME.match(text, at)
    if found:
        if text[found.end() : found.end() + 1] == b'"':
            raise Refused(2, at)
        return found.end()
    if first not in MARKS + OPENERS + CLOSERS:
        raise Refused(2, at)
    return at + 1


def tokens(text):
    """The tokens of a text: the start and the bytes of each, and for an opener the index of its closer's token."""
    if len(text) > TEXT_LIMIT:
        raise Refused(1, 0)
    found, open_, closers, at = [], [], {}, 0
    while at < len(text):
        blank = BLANKS.match(text, at)
        if blank:
            at = blank.end()
            continue
        end = lexeme_end(text, at)
        word = text[at:end]
        if word in OPENERS:
            if len(open_) == OPEN_LIMIT:
                raise Refused(5, at)
            open_.append(len(found))
        elif word in CLOSERS:
            if not open_ or OPENERS.index(found[open_[-1]][1]) != CLOSERS.index(word):
                raise Refused(4, at)
            closers[open_.pop()] = len(found)
        found.append((at, word))
        at = end
    if open_:
        raise Refused(4, len(text))
    return found, closers


# ---- the grammar of a book


def is_name(word):
    return NAME.fullmatch(word) is not None and word.decode() not in NO_NAMES


def items(text):
    """The items in front of the first place at which none stands: the name, the body's start and end of each; and the refusal that is due
    there, None at the text's end."""
    found, closers = tokens(text)
    tests, made, at = (is_name, b"=".__eq__, b"{".__eq__), [], 0
    while at < len(found):
        for i, test in enumerate(tests):
            if at + i == len(found):
                return made, Refused(6, len(text))
            if not test(found[at + i][1]):
                return made, Refused(6, found[at + i][0])
        made.append((found[at][1], found[at + 2][0] + 1, found[closers[at + 2]][0]))
        at = closers[at + 2] + 1
    return made, None


def stored_answers(path="oracle/answers/read.txt.gz"):
    """What the Rust reads: for each stored text its nodes, or its refusal."""
    answers = {}
    for line in gzip.open(path, "rt"):
        text, answer = line.rstrip("\n").split("\t", 1)
        text = bytes.fromhex(text)
        if answer.startswith("accept"):
            answers[text] = writer.decode(text, bytes.fromhex(answer.split("\t")[0].split()[2]))[0]
        else:
            answers[text] = Refused(int(answer.split()[1]), int(answer.split()[3]))
    return answers


def bodies(text):
    """The bodies of a text's items."""
    try:
        return [text[start:end] for _, start, end in items(text)[0]]
    except Refused:
        return []


def book(text, read):
    """A book's items with their nodes; `read` has for a body its nodes, or reading's refusal of 6 to 13 and 15."""
    found, wrong = items(text)
    made, left = [], None
    for name, start, end in found:
        nodes = read(text[start:end])
        if isinstance(nodes, Refused):
            number, place = nodes.args
            if number != 13:
                raise Refused(number, start + place)
            left = left or Refused(13, start + place)
        made.append((name, start, end, nodes))
    if wrong or left:
        raise wrong or left
    names = [name for name, *_ in made]
    if len(set(names)) < len(names):
        raise Refused(37, 0)
    if len(names) > ITEM_LIMIT:
        raise Refused(38, 0)
    return made


# ---- the two operations


def called(nodes):
    """The names of the presets among nodes, at any depth."""
    return {fields["name"] for kind, fields in writer.preorder(nodes) if kind == "preset"}


def calls(made):
    """For each item the ordinals of those that it calls."""
    ordinals = {name: i for i, (name, *_) in enumerate(made)}
    return [{ordinals[name] for name in called(nodes) if name in ordinals} for *_, nodes in made]


def in_ring(graph, start):
    """Whether a chain of calls from an item comes round to it."""
    seen, left = set(), list(graph[start])
    while left:
        i = left.pop()
        if i == start:
            return True
        if i not in seen:
            seen.add(i)
            left += graph[i]
    return False


def order(graph):
    listed = []
    while len(listed) < len(graph):
        listed.append(next(i for i, own in enumerate(graph) if i not in listed and own <= set(listed)))
    return listed


def listing(text, out, read):
    """The answer, and the output afterwards."""
    try:
        graph = calls(book(text, read))
        if any(in_ring(graph, i) for i in range(len(graph))):
            raise Refused(39, 0)
        if len(out) < len(graph):
            raise Refused(32, 0)
        return f"list {len(graph)}", bytes(order(graph)) + out[len(graph) :]
    except Refused as refused:
        return str(refused), out


def lookup(store, chain, name, read):
    """The answer, with the body that is lent."""
    try:
        books = [("store", store, book(store, read)), ("chain", chain, book(chain, read))]
    except Refused as refused:
        return str(refused)
    for which, text, made in books:
        for own, start, end, _ in made:
            if own == name:
                return f"{which} {start} {end - start} {text[start:end].hex().upper()}"
    return str(Refused(43, 0))
