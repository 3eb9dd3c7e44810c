#!/usr/bin/env python3
"""Makes the stored cases `color` by the words of 02 (g): names and forms of `#` under both lists, their four bytes, and lists that are
none. The names and values are those of tools/color_table.py. Run from the repository's root."""
import random

from color_table import RUST, near, tables, wanted
from stored import store

HEX = "09afAF"
LISTS = (0, 1, 2, 3, 4294967295)
NODE = "0A0000" + "00000000"  # the kind, its start, an empty target


def sheet(size, other=0):
    """One colour node: from the text's first bytes to as many others behind them, for one second in the first space."""
    return bytes.fromhex("0001" + NODE + f"0000{size:04X}{size:04X}{other:04X}" + "3F800000" + "00" + "00")


def foreign(text):
    return next((i for i, b in enumerate(text) if b not in b"\t\n\r" and not 32 <= b <= 126), None)


def is_color(names, number, string):
    if string.startswith("#"):
        return wanted(names, string) is not None
    return string.encode().lower().decode() in (RUST if number == 1 else names)


def verdict(names, number, text, bad_sheet, strings):
    """25 under the chosen list; 36 for a list other than the two, after 1 and 2."""
    if len(text) > 16384:
        return "refuse 1 at 0"
    if foreign(text) is not None:
        return f"refuse 2 at {foreign(text)}"
    if number not in (1, 2):
        return "refuse 36 at 0"
    if bad_sheet:
        return "refuse 20 at 0"
    return "accept" if all(is_color(names, number, s) for s in strings) else "refuse 25 at 1"


def checked(names, number, first, second="red"):
    text = (first + second).encode()
    row = f"{number:08X}\t{text.hex().upper()}\t{sheet(len(first), len(second)).hex().upper()}"
    return row, verdict(names, number, text, False, (first, second))


def ordered(names):
    """Each list with a text that is too long, a byte that is none, bytes that are no sheet, a string that is no colour, a name of one list."""
    for number in LISTS:
        for text, held, bad, strings in (
            (b" " * 16385, b"", True, ()),
            (b"re\x7fd", b"", True, ()),
            (b"red", b"\0\1", True, ()),
            (b"red", b"", True, ()),
            (b"redd", sheet(4), False, ("redd",)),
            (b"tomato", sheet(6), False, ("tomato", "")),
            (b"redred", sheet(3, 3), False, ("red", "red")),
            (b"tomatored", sheet(6, 3), False, ("tomato", "red")),
            (b"", b"\0\0", False, ()),
        ):
            row = f"{number:08X}\t{text.hex().upper()}\t{held.hex().upper()}"
            yield row, verdict(names, number, text, bad, strings)


def four(names, string):
    value = wanted(names, string)
    shown = " ".join(str(b) for b in value or bytes(4))
    return "\t" + string.encode().hex().upper(), shown + (" accept" if value else " refuse 25 at 0")


def strings(names):
    pick = random.Random(7)
    for name in names:
        yield from (name, name.upper(), "".join(pick.choice((c, c.upper())) for c in name))
    for name in ("red", "tan", "tomato", "lightgoldenrodyellow", "grey"):
        yield from (s for s in near(name) if all(32 <= ord(c) <= 126 for c in s))
    yield from ("", "transparent", "Transparent", "currentcolor", "currentColor", "inherit", "none")
    for length in range(10):
        yield "#" + "".join(pick.choice(HEX) for _ in range(length))
        yield "#" + "".join(pick.choice("0123456789abcdef") for _ in range(length))
        yield "#" + "g" * length
        yield "#" + "a" * (length - 1) + "/"
    yield from ("#abc", "#ABC", "#abcd", "#123456", "#12345678", "##abc", " #abc", "#abc ")


def main():
    names = tables()
    rows = list(ordered(names))
    for string in strings(names):
        rows += [checked(names, 1, string), checked(names, 2, string), four(names, string)]
    rows += [checked(names, number, "blue", second) for number in (1, 2) for second in ("Tomato", "#12", "NAVY")]
    store("color", [row for row, _ in rows], [answer for _, answer in rows])
    print(f"{len(rows)} cases")


if __name__ == "__main__":
    main()
