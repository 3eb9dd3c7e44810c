#!/usr/bin/env python3
"""Runs every example of docs/LANGUAGE.md through the C example and compares what is printed. It also compares the page with the
definitions: the fields of each kind of node and what they hold; the words that are no names; every word of the grammar, easing, preset and
colour stands in an example that is accepted, and every refusal that a script can bring about in one that is refused. The argument is the C
example's program. Run from the repository's root."""
import re, subprocess, sys

PAGE = "docs/LANGUAGE.md"
# Refusals that a script can bring about; those of the library alone are named on the page.
BY_SCRIPT = {*range(1, 14), 15, *range(21, 28)}
# A line of what is printed, with the mode before its `>`.
PRINTED = re.compile(r"((?:back|rounded|color|order|lookup \w+)?)>(?: (.*))?")
# The grammar's table of the fields in each section, and what the page calls the rules in it.
TABLES = {"tween": "tween", "spring": "spring", "stagger": "opening", "path": "path", "morph": "morph", "draw": "draw", "color": "color"}
TABLES |= {"waveform": "waveform", "preset": "draw"}
HOLDS = {"number": "number", "count": "whole", "flag": "truth value", "easing": "easing", "loop_mode": "loop mode", "value": "value"}


def long_track(numbers):
    """100 frames, the last with an array."""
    frames = "".join(f"{i}:0," for i in range(99))
    return "keyframes p{" + frames + "99:[" + ",".join(["0"] * numbers) + "]}"


def book(items):
    return "".join(f"a{i}={{}}" for i in range(items))


# What a line in parentheses describes.
DESCRIBED = {
    "the empty text": "",
    "16,384 blanks": " " * 16384,
    "16,385 blanks": " " * 16385,
    "a track of 100 frames, the last with an array of 7,914 numbers": long_track(7914),
    "a track of 100 frames, the last with an array of 7,915 numbers": long_track(7915),
    "a book of 128 items": book(128),
    "a book of 129 items": book(129),
}


class Example:
    """A run: its line on the page, the script or the store's book, the chain's book, the mode, and the lines that are printed."""

    def __init__(self, at, script, chain, mode):
        described = re.fullmatch(r"\((\w[\w ,]+)\)", script)
        self.at, self.script, self.chain, self.mode, self.wanted = at, script, chain, mode, []
        self.text = DESCRIBED[described[1]] if described else script

    def ways(self):
        """The arguments of the C example, for each way to run it."""
        name, *rest = self.mode.split() or [""]
        return {"": [["calls"], ["page"]], "lookup": [["lookup", self.chain, *rest]]}.get(name, [[name]])


def blocks(page):
    """The rows of each block, numbered."""
    inside, found = False, []
    for row in enumerate(page.splitlines(), 1):
        if row[1].startswith("```"):
            inside = not inside
            found += [[]] if inside else []
        elif inside:
            found[-1].append(row)
    return found


def examples(rows):
    """The runs of a block."""
    found, script, chain, mode = [], [], None, None
    for at, row in rows:
        printed = PRINTED.fullmatch(row)
        if printed and not script:
            sys.exit(f"{PAGE}:{at}: no script")
        if printed:
            if printed[1] != mode:
                mode = printed[1]
                found.append(Example(at, "\n".join(script), "\n".join(chain or []), mode))
            found[-1].wanted.append(printed[2] or "")
            continue
        if mode is not None:
            script, chain, mode = [], None, None
        if row == "chain:":
            chain = []
        elif chain is not None:
            chain.append(row)
        elif script or row:
            script.append(row)
    if mode is None:
        sys.exit(f"{PAGE}:{rows[0][0]}: nothing is printed")
    return found


def run(program, text, arguments):
    done = subprocess.run([program, *arguments], input=text.encode(), capture_output=True, check=True)
    return done.stdout.decode().removesuffix("\n").split("\n")


def is_line(row):
    """Whether a row is a line: length, record and check byte, which sum to zero modulo 256."""
    if not re.fullmatch(r"(?:[0-9A-F]{2}){4,}", row):
        return False
    line = bytes.fromhex(row)
    return int.from_bytes(line[:2], "big") == len(line) - 3 and sum(line) % 256 == 0


def agrees(wanted, got):
    """Whether what was printed is what the page has; its `...` stands for one line or more."""
    if "..." not in wanted:
        return wanted == got
    at = wanted.index("...")
    end = len(got) - (len(wanted) - at - 1)
    return at < end and wanted[:at] == got[:at] and all(map(is_line, got[at:end])) and wanted[at + 1 :] == got[end:]


def read(path):
    return open(path, encoding="utf-8").read()


def words_in(crate, file, pattern):
    return re.findall(pattern, read(f"crates/{crate}/specs/{file}.antt"))


def field_faults(page):
    """Sections whose table of fields is not the grammar's."""
    grammar = read("crates/grammar/specs/Grammar.antt")
    for section, table in TABLES.items():
        body = re.search(rf"^{table}_fields(?: s)? =\n?(.*?)\n\n", grammar, re.M | re.S)[1]
        defined = re.findall(r'\("(\w+)", (\w+)', body)
        shown = re.findall(r"^\| `(\w+)` \| (.*?) \|", re.search(rf"^### {section}\n(.*?)^###? ", page, re.M | re.S)[1], re.M)
        shown = [field for field in shown if field[0] not in ("center_out", "edges_in")]
        if sorted(name for name, _ in defined) != sorted(name for name, _ in shown):
            yield f"{section}: its fields are {[name for name, _ in defined]}"
        for name, rule in defined:
            if rule in HOLDS and (name, HOLDS[rule]) not in shown:
                yield f"{section}: {name} holds: {HOLDS[rule]}"


def omissions(page, accepted, refused):
    """What the definitions have and the page has not."""
    seen = {word for text in accepted for word in re.findall(r"\w+", text)}
    files = [("grammar", "Values"), ("grammar", "Grammar"), ("easing", "Names"), ("presets", "Presets"), ("presets", "Colors")]
    wanted = {word for file in files for word in words_in(*file, r'"([A-Za-z]\w+)"')} - {"noise"}
    yield from (f"no accepted example has {word}" for word in sorted(wanted - seen))
    yield from (f"no example is refused with {number}" for number in sorted(BY_SCRIPT - refused))
    listed = re.search(r"^These words are no names: (.*)$", page, re.M)
    both = set(words_in("token", "Names", r'"(\w+)"')) ^ set(re.findall(r"`(\w+)`", listed[1]))
    yield from (f"of the words that are no names, {word} stands in one list alone" for word in sorted(both))


def main(program):
    page, bad, accepted, refused = read(PAGE), [], [], set()
    runs = [example for rows in blocks(page) for example in examples(rows)]
    for example in runs:
        for way in example.ways():
            got = run(program, example.text, way)
            if not agrees(example.wanted, got):
                bad.append(f"{PAGE}:{example.at}: {way[0]} prints {got}")
        answer = re.fullmatch(r"refuse (\d+) at \d+", example.wanted[-1])
        if example.mode == "" and answer:
            refused.add(int(answer[1]))
        elif example.mode in ("", "back"):
            accepted.append(example.text)
    bad += [f"{PAGE}: {fault}" for fault in [*field_faults(page), *omissions(page, accepted, refused)]]
    print("\n".join(bad) if bad else f"{PAGE}: {len(runs)} examples print what it says")
    return bool(bad)


if __name__ == "__main__":
    sys.exit(main(sys.argv[1]))
