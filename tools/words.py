#!/usr/bin/env python3
"""Writes lists of words as code: crates/words/src/lib.rt, the definition specs/ListMeans.antt and the proofs of the functions. With
--check it says which of these files are not what it writes. Run from the repository's root."""
import os, re, sys

LISTS = {
    "Nodes": "tween spring keyframes path morph draw color waveform preset label at sequence parallel group stagger",
    "TweenRows": "duration easing delay time_scale loop snap round reverse",
    "SpringRows": "preset stiffness damping mass velocity epsilon integrator critically_damped overdamped underdamped",
    "WaveformRows": "frequency amplitude phase duty_cycle seed smoothness duration",
    "DrawRows": "duration easing",
    "MorphRows": "samples duration easing",
    "ColorRows": "duration space easing",
    "PathRows": "duration easing auto_rotate offset loop",
    "RoughFields": "strength points",
    "SlowMoFields": "linear_ratio power",
    "GridFields": "cols rows origin",
    "RandomFields": "seed min max",
    "OpeningFields": "pattern delay",
    "Curves": "cubic_bezier steps wiggle rough slowmo",
    "LoopModes": "once forever ping_pong times",
    "GroupModes": "sequence parallel",
    "GridOrigins": "top_left top_right bottom_left bottom_right center top bottom left right",
    "Patterns": "grid random center_out edges_in",
    "Spaces": "linear lab oklch",
    "Waveforms": "sine sawtooth square triangle noise",
    "Along": "along",
    "SpringPresets": "gentle wobbly stiff slow snappy",
    "Integrators": "semi_implicit_euler rk4",
    # the names that checking knows
    "Easings": "linear ease_in_quad ease_out_quad ease_in_out_quad ease_in_cubic ease_out_cubic ease_in_out_cubic ease_in_quart"
    " ease_out_quart ease_in_out_quart ease_in_quint ease_out_quint ease_in_out_quint ease_in_sine ease_out_sine ease_in_out_sine"
    " ease_in_expo ease_out_expo ease_in_out_expo ease_in_circ ease_out_circ ease_in_out_circ ease_in_back ease_out_back"
    " ease_in_out_back ease_in_elastic ease_out_elastic ease_in_out_elastic ease_in_bounce ease_out_bounce ease_in_out_bounce",
    "Presets": "fade_in fade_out slide_in slide_out scale_in scale_out bounce_in bounce_out modal_enter modal_exit drawer_open"
    " drawer_close toast_enter toast_exit page_enter page_exit stagger_children loading_pulse loading_wave shake wiggle heartbeat"
    " float shimmer",
    "Colors": "black white red green blue yellow cyan magenta gray grey orange purple pink brown lime teal navy maroon olive silver"
    " aqua fuchsia",
    "CssColors": "aliceblue antiquewhite aqua aquamarine azure beige bisque black blanchedalmond blue blueviolet brown burlywood"
    " cadetblue chartreuse chocolate coral cornflowerblue cornsilk crimson cyan darkblue darkcyan darkgoldenrod darkgray"
    " darkgreen darkgrey darkkhaki darkmagenta darkolivegreen darkorange darkorchid darkred darksalmon darkseagreen"
    " darkslateblue darkslategray darkslategrey darkturquoise darkviolet deeppink deepskyblue dimgray dimgrey dodgerblue"
    " firebrick floralwhite forestgreen fuchsia gainsboro ghostwhite gold goldenrod gray green greenyellow grey honeydew"
    " hotpink indianred indigo ivory khaki lavender lavenderblush lawngreen lemonchiffon lightblue lightcoral lightcyan"
    " lightgoldenrodyellow lightgray lightgreen lightgrey lightpink lightsalmon lightseagreen lightskyblue lightslategray"
    " lightslategrey lightsteelblue lightyellow lime limegreen linen magenta maroon mediumaquamarine mediumblue"
    " mediumorchid mediumpurple mediumseagreen mediumslateblue mediumspringgreen mediumturquoise mediumvioletred"
    " midnightblue mintcream mistyrose moccasin navajowhite navy oldlace olive olivedrab orange orangered orchid"
    " palegoldenrod palegreen paleturquoise palevioletred papayawhip peachpuff peru pink plum powderblue purple"
    " rebeccapurple red rosybrown royalblue saddlebrown salmon sandybrown seagreen seashell sienna silver skyblue slateblue"
    " slategray slategrey snow springgreen steelblue tan teal thistle tomato turquoise violet wheat white whitesmoke yellow"
    " yellowgreen",
    # no list's words: what each number above the lists' stood for
    "Empty": "",
}
CRATE = "crates/words"
LIMB = 256**8


def pack(word):
    """The bytes of a word as one number, the first the least, under a 1."""
    return int.from_bytes(word.encode() + b"\1", "little")


def parts(word):
    """The numbers of a word: of each 8 bytes, and of those behind them under a 1."""
    number, given = pack(word), []
    while number >= LIMB:
        given.append(number % LIMB)
        number //= LIMB
    return given + [number]


class Group:
    """The words of a list of some lengths that begin with the same 8 bytes."""

    def __init__(self, stem, first, rows):
        self.first, self.rows, self.alone = first, rows, len(rows) == 1
        self.number = int.from_bytes(first.encode(), "little")
        self.function = f"{stem}_{first.strip('_')}"


class List:
    def __init__(self, name, words):
        self.name, self.words = name, words.split()
        self.short, self.long, self.longest = ([(i, w) for i, w in enumerate(self.words) if len(w) // 8 == n] for n in range(3))
        assert all(len(w) < 24 for w in self.words) and len({tuple(parts(w)[:2]) for _, w in self.longest}) == len(self.longest)
        self.longs, self.longests = self.groups("long", self.long), self.groups("longest", self.longest)

    def stem(self, kind):
        """The name of a function over the list: the list's own in snake case behind a word."""
        return kind + re.sub("([A-Z])", r"_\1", self.name).lower()

    def groups(self, kind, rows):
        firsts = list(dict.fromkeys(w[:8] for _, w in rows))
        return [Group(self.stem(kind), first, [(i, w) for i, w in rows if w[:8] == first]) for first in firsts]


ALL = [List(name, words) for name, words in LISTS.items()]
SHORT = [l for l in ALL if len(l.short) > 1]
LONG = [l for l in ALL if len(l.long) > 1]
LONGEST = [l for l in ALL if l.longest]


# ---- the code


def arms(rows):
    return "\n".join(f"        {row}" for row in rows)


def short_function(l):
    rows = [f"{pack(w):#x} => Some({i}), // {w}" for i, w in l.short]
    return f"""fn {l.stem("short")}(v: u64) -> Option<u8>
    ensures {{ result ≡ seek (keys_of List.{l.name}) 0 v }}
{{
    match v {{
{arms(rows)}
        _ => None,
    }}
}}
"""


def long_group(l, g):
    rows = [f"{parts(w)[1]:#x} => Some({i}), // {w}" for i, w in g.rows]
    return f"""// Behind `{g.first}`.
fn {g.function}(rest: u64) -> Option<u8>
    requires {{ 1 ≤ rest }}
    ensures {{ result ≡ seek (keys_of List.{l.name}) 0 (rest * {LIMB} + {g.number}) }}
{{
    match rest {{
{arms(rows)}
        _ => None,
    }}
}}
"""


def long_arm(g):
    if not g.alone:
        return f"{g.number:#x} => {g.function}(rest), // {g.first}"
    ((i, w),) = g.rows
    return f"{g.number:#x} => if_equal(rest, {parts(w)[1]:#x}, {i}), // {w}"


def long_function(l):
    return f"""fn {l.stem("long")}(v: u64, rest: u64) -> Option<u8>
    requires {{ 1 ≤ rest }}
    ensures {{ result ≡ seek (keys_of List.{l.name}) 0 (rest * {LIMB} + v) }}
{{
    match v {{
{arms(map(long_arm, l.longs))}
        _ => None,
    }}
}}
"""


def longest_group(l, g):
    rows = [f"{parts(w)[1]:#x} => if_equal(last, {parts(w)[2]:#x}, {i}), // {w}" for i, w in g.rows]
    return f"""// Behind `{g.first}`.
fn {g.function}(rest: u64, last: u64) -> Option<u8>
    requires {{ 1 ≤ last }}
    ensures {{ result ≡ seek (keys_of List.{l.name}) 0 ((last * {LIMB} + rest) * {LIMB} + {g.number}) }}
{{
    match rest {{
{arms(rows)}
        _ => None,
    }}
}}
"""


def longest_arm(g):
    if not g.alone:
        return f"{g.number:#x} => {g.function}(rest, last), // {g.first}"
    ((i, w),) = g.rows
    return f"{g.number:#x} => if_long(rest, last, {parts(w)[1]:#x}, {parts(w)[2]:#x}, {i}), // {w}"


def longest_function(l):
    return f"""fn {l.stem("longest")}(v: u64, rest: u64, last: u64) -> Option<u8>
    requires {{ 1 ≤ last }}
    ensures {{ result ≡ seek (keys_of List.{l.name}) 0 ((last * {LIMB} + rest) * {LIMB} + v) }}
{{
    match v {{
{arms(map(longest_arm, l.longests))}
        _ => None,
    }}
}}
"""


def short_row(l):
    if l in SHORT:
        return f"List::{l.name} => {l.stem('short')}(v),"
    i, w = l.short[0]
    return f"List::{l.name} => if_equal(v, {pack(w):#x}, {i}), // {w}"


def long_row(l):
    if l in LONG:
        return f"List::{l.name} => {l.stem('long')}(v, rest),"
    i, w = l.long[0]
    return f"List::{l.name} => if_long(v, rest, {pack(w) % LIMB:#x}, {pack(w) // LIMB:#x}, {i}), // {w}"


def longest_row(l):
    return f"List::{l.name} => {l.stem('longest')}(v, rest, last),"


def code():
    variants = "\n".join(f"    {l.name}," for l in ALL)
    row = "\n".join(f"    List::{l.name}," for l in ALL)
    functions = [short_function(l) for l in SHORT]
    for l in LONG:
        functions += [*(long_group(l, g) for g in l.longs if not g.alone), long_function(l)]
    for l in LONGEST:
        functions += [*(longest_group(l, g) for g in l.longests if not g.alone), longest_function(l)]
    functions = "\n".join(functions)
    return f"""// Made by tools/words.py. The words of the grammar and the names that checking knows, in lists: the place of a word in a list, told by
// its bytes as numbers. For our own crates.
#![tactic(auto)]

ghost use Rattle.std.specs.Prelude.{{◌≡◌, ◌+◌, ◌*◌, ◌≤◌, length, slice_index_or}};
ghost use Rattle.text.specs.Bytes.{{part}};
ghost use Rattle.text.specs.Words.{{is_some, find}};
ghost use Rattle.words.specs.ListMeans.{{list_of, numbered}};
ghost use Rattle.words.specs.KeyMeans.{{keys_of, seek, place_is}};

use packing::{{eight, if_equal, if_long, packed}};

mod packing;

// The lists.
#[derive(Clone, Copy, Debug, PartialEq, Eq)]
pub enum List {{
{variants}
}}

// Each by its number.
const LISTS: [List; {len(ALL)}] = [
{row}
];

// A list by its number, counted from 0 in the order above; each number above theirs is that of `Empty`.
impl From<u8> for List {{
    ghost from_gives = {{ λ number list. list ≡ numbered number }};

    fn from(number: u8) -> List {{
        list_at(&LISTS, usize::from(number))
    }}
}}

fn list_at(lists: &[List], number: usize) -> List
    ensures {{ result ≡ slice_index_or lists.now number List.Empty }}
{{
    lists.get(number).copied().unwrap_or(List::Empty)
}}

// ---- the words of a list of at most 7 bytes, of 8 to 15, and of 16 to 23

{functions}
// ---- the words of any list

// A word of at most 7 bytes.
fn short(list: List, v: u64) -> Option<u8>
    ensures {{ result ≡ seek (keys_of list) 0 v }}
{{
    match list {{
{arms(short_row(l) for l in ALL if l.short)}
        _ => None,
    }}
}}

// A word of 8 to 15 bytes: its first 8, and the others under a 1.
fn long(list: List, v: u64, rest: u64) -> Option<u8>
    requires {{ 1 ≤ rest }}
    ensures {{ result ≡ seek (keys_of list) 0 (rest * {LIMB} + v) }}
{{
    match list {{
{arms(long_row(l) for l in ALL if l.long)}
        _ => None,
    }}
}}

// A word of 16 to 23 bytes: twice 8, and the others under a 1.
fn longest(list: List, v: u64, rest: u64, last: u64) -> Option<u8>
    requires {{ 1 ≤ last }}
    ensures {{ result ≡ seek (keys_of list) 0 ((last * {LIMB} + rest) * {LIMB} + v) }}
{{
    match list {{
{arms(map(longest_row, LONGEST))}
        _ => None,
    }}
}}

// The place in a list of the word of n bytes at a place of a text.
pub fn find(list: List, text: &[u8], at: usize, n: usize) -> Option<u8>
    requires {{ at + n ≤ length text.now }}
    ensures {{ place_is result ≡ find (list_of list) 0 (part text.now at n) }}
{{
    match n {{
        0..=7 => short(list, packed(text, at, n)),
        8..=15 => long(list, eight(text, at), packed(text, at + 8, n - 8)),
        16..=23 => longest(
            list,
            eight(text, at),
            eight(text, at + 8),
            packed(text, at + 16, n - 16),
        ),
        _ => None,
    }}
}}

// Whether the bytes of a text from a place, at most n, are a word of a list.
pub fn holds(list: List, text: &[u8], at: usize, n: usize) -> bool
    ensures {{ result ≡ is_some (find (list_of list) 0 (part text.now at n)) }}
{{
    let size = text::part(text, at, n).len();
    size != 0 && find(list, text, at, size).is_some()
}}
"""


def joined(names):
    """Words of a list, in lines of at most 120 characters."""
    if not names:
        return "[]"
    rows = [names[0]]
    for name in [*names[1:], "[]"]:
        if len(rows[-1]) + len(name) > 100:
            rows.append(f"∷ {name}")
        else:
            rows[-1] += f" ∷ {name}"
    return "\n    ".join(rows)


def definition():
    rows = "\n".join("list_of list." + l.name + " =\n    words (" + joined([f'"{w}"' for w in l.words]) + ")" for l in ALL)
    return f"""-- Made by tools/words.py. The lists of the grammar's words and of the names that checking knows.
use Rattle.std.specs.Prelude.{{ℕ, List, [], ◌∷◌, slice_index_or}}
use Rattle.text.specs.Words.{{words}}
use Rattle.words.specs.declared.List.{{List as WordList}}
use Rattle.words.specs.declared.List.TheVariants as list

unfoldable pub list_of : WordList → List (List ℕ)
{rows}

-- the lists in a row, each at its number
abbrev pub all_lists : List WordList
all_lists =
    {joined([f"list.{l.name}" for l in ALL])}

-- the list with a number; above the lists' numbers the one without words
abbrev pub numbered : ℕ → WordList
numbered n = slice_index_or all_lists n list.Empty
"""


def numbers():
    return f"""-- Made by tools/words.py. The place of each list in the row of them.
use Prim.Native.Nat.{{ℕ}}
use mathlib.Core.Path.{{◌≡◌, refl}}
use lib.ListN.{{get_or}}
use Rattle.words.specs.ListMeans.{{all_lists}}
use Rattle.words.specs.declared.List.{{List as WordList}}
use Rattle.words.specs.declared.List.TheVariants as list

abbrev pub number : WordList → ℕ
{chr(10).join(f"number list.{l.name} = {i}" for i, l in enumerate(ALL))}

pub at_number : (k : WordList) → get_or all_lists (number k) list.Nodes ≡ k
{chr(10).join(f"at_number list.{l.name} = refl" for l in ALL)}
"""


# ---- the proofs


def proof(function, about, uses, answers):
    """What is answered of the proof of a function: what its returns mean, in the arms of its match, by the number of each. The returns
    that are a call in the same words need no answer."""
    lines = [f"-- Made by tools/words.py. `words::{function}` meets its contract{about}."]
    lines += uses
    lines += [f"use Rattle.words.proofs.{function}.Goals as goal"]
    for arm, unfolding, term in answers:
        name = f"returns-{arm}"
        lines += ["", f"pub {name} : goal.{name}", f"unfolding {unfolding}", *laid(f"{name} c =", term)]
    return "\n".join(lines) + "\n"


def laid(head, term):
    """A clause in lines of at most 140 characters: on one line, or its `let`s and then its words."""
    *lets, term = term.split(" in ")
    if not lets and len(f"{head} {term}") <= 140:
        return [f"{head} {term}"]
    lines, row = [head, *(f"    {bound} in" for bound in lets)], "   "
    groups = re.findall(r"\([^()]*\)\)*|[^ ]+", term)
    for part in (part for group in groups for part in (group.split() if len(group) > 130 else [group])):
        if len(row) + 1 + len(part) > 140:
            lines.append(row)
            row = "   "
        row += " " + part
    return lines + [row]


def of_words(key, keys, every, laws):
    """The lines of import from this crate."""
    return [
        "use Rattle.words.specs.declared.List.TheVariants as list",
        f"use Rattle.words.specs.ListMeans.{{{key}}}",
        f"use Rattle.words.specs.KeyMeans.{{{keys}}}",
        f"use Rattle.words.proofs.KeyLaws.{{{every}}}",
        f"use Rattle.words.proofs.ListLaws.{{{laws}}}",
    ]


TABLE = "list_of keys_of packs onto seek"
REFL = "use mathlib.Core.Path.{refl}"
ARITH = "use native.Mathlib.Omega.{arith}"
RULES = "use Rattle.std.proofs.Common.{rules}"
LIST = "use mathlib.Core.List.{[], ◌∷◌}"


def bytes_of(names):
    return f"use Rattle.text.specs.Bytes.{{{names}}}"


def arm(number):
    """A place in an arm of the match, by its number."""
    return f"in-{number}"


# the last arm, and that the value is none of the others'
REST = "c.in_default.in_default-own.rest"
LAST = "in_default"


def short_proof(l):
    answers = [(arm(pack(w)), TABLE, f'key_at (keys_of list.{l.name}) c.args.v {word(w)} {i} c.{arm(pack(w))}.is refl') for i, w in l.short]
    answers.append((LAST, f"{TABLE} every one_of short_in shorts", f"no_key (keys_of list.{l.name}) c.args.v refl {REST} (omega arith)"))
    uses = [REFL, ARITH, bytes_of("bytes, one_of"), *of_words("list_of", "onto, pack, packs, keys_of, seek", "every", "short_in, shorts, key_at, no_key")]
    return proof(l.stem("short"), "", uses, answers)


def called(rows):
    """The numbers of arms that call a function, each with the place of its call: the first has the function's name alone."""
    seen = set()
    for number, name in rows:
        yield number, name if name not in seen else f"{name}-{arm(number)}"
        seen.add(name)


def word(w):
    return f'(pack (bytes "{w}"))'


def tail(w):
    return f'(pack (bytes "{w}") / limb)'


# what stands behind the first 8 bytes, in a function over `v` and `rest` and in one over `v`, `rest` and `last`
MIDDLE = "args.v args.rest (omega arith) (is_middle args.rest c.requires (omega arith))"
FAR = "args.v (args.last * limb + args.rest) (omega arith) (is_far args.last args.rest c.requires)"
ARGS = "let args = c.args in "


def long_group_proof(l, g):
    answers = []
    for i, w in g.rows:
        at = arm(parts(w)[1])
        answers.append((at, TABLE, f"tail_at (keys_of list.{l.name}) {g.number} c.args.rest {word(w)} {i} c.{at}.is refl refl"))
    answers.append((
        LAST,
        f"{TABLE} every one_of middle tail_in tails",
        f"{ARGS}no_tail middle (keys_of list.{l.name}) {g.number} args.rest (omega arith) (is_middle args.rest c.requires (omega arith)) refl {REST}",
    ))
    laws = of_words("list_of", "onto, pack, packs, keys_of, seek", "every", "middle, is_middle, tail_in, tails, tail_at, no_tail")
    return proof(g.function, "", [REFL, ARITH, bytes_of("bytes, one_of"), *laws], answers)


def long_proof(l):
    answers = []
    for g, (number, place) in zip(l.longs, called((g.number, "if_equal" if g.alone else g.function) for g in l.longs)):
        if g.alone:
            ((i, w),) = g.rows
            term = f"word-at middle (keys_of list.{l.name}) {MIDDLE} {word(w)} {i} _ c.{arm(number)}.is c.{place}.ensures refl refl"
            answers.append((arm(number), f"{TABLE} every one_of middle tail_in", ARGS + term))
    answers.append((LAST, f"{TABLE} every one_of middle head_in heads", f"{ARGS}no_head middle (keys_of list.{l.name}) {MIDDLE} refl {REST}"))
    lone = any(g.alone for g in l.longs)
    laws = of_words(
        "list_of", f"onto, {'pack, ' * lone}packs, keys_of, seek", "every", f"middle, is_middle, {'tail_in, word-at, ' * lone}head_in, heads, no_head"
    )
    return proof(l.stem("long"), "", [REFL, ARITH, bytes_of(f"{'bytes, ' * lone}one_of"), *laws], answers)


def longest_group_proof(l, g):
    answers = []
    for (i, w), (number, place) in zip(g.rows, called((parts(w)[1], "if_equal") for _, w in g.rows)):
        answers.append((
            arm(number),
            f"{TABLE} every alone",
            f"{ARGS}next-at (keys_of list.{l.name}) {g.number} args.rest args.last {word(w)} {i} _ (omega arith) (omega arith)"
            f" refl c.{arm(number)}.is c.{place}.ensures refl refl",
        ))
    answers.append((
        LAST,
        f"{TABLE} every one_of far next_in nexts",
        f"{ARGS}no_next (keys_of list.{l.name}) {g.number} args.rest args.last (omega arith) (omega arith) c.requires refl {REST}",
    ))
    laws = of_words("list_of", "onto, pack, packs, keys_of, seek", "every", "far, alone, next-at, next_in, nexts, no_next")
    return proof(g.function, "", [REFL, ARITH, bytes_of("bytes, one_of"), *laws], answers)


def longest_proof(l):
    answers = []
    for g, (number, place) in zip(l.longests, called((g.number, "if_long" if g.alone else g.function) for g in l.longests)):
        if g.alone:
            ((i, w),) = g.rows
            given = f"(pair_is args.rest args.last {tail(w)} {i} _ (omega arith) c.{place}.ensures)"
            term = f"word-at far (keys_of list.{l.name}) {FAR} {word(w)} {i} _ c.{arm(number)}.is {given} refl refl"
            answers.append((arm(number), f"{TABLE} every one_of far tail_in", ARGS + term))
    answers.append((LAST, f"{TABLE} every one_of far head_in heads", f"{ARGS}no_head far (keys_of list.{l.name}) {FAR} refl {REST}"))
    lone = any(g.alone for g in l.longests)
    laws = of_words(
        "list_of",
        f"onto, {'pack, ' * lone}packs, keys_of, seek",
        "every",
        f"limb, far, is_far, {'tail_in, word-at, pair_is, ' * lone}head_in, heads, no_head",
    )
    uses = [f"use Prim.Native.Nat.{{◌+◌, ◌*◌{', ◌/◌' * lone}}}", REFL, ARITH, bytes_of(f"{'bytes, ' * lone}one_of"), *laws]
    return proof(l.stem("longest"), "", uses, answers)


def others(lists):
    """Some lists. That a list is none of them, as the last arm of a `match` says it, is found."""
    return "(" + " ∷ ".join(f"list.{l.name}" for l in lists) + " ∷ [])", "(search rules)"


def any_short_proof():
    rows, answers = [l for l in ALL if l.short], []
    for l, (name, place) in zip(rows, called((l.name, l.stem("short") if l in SHORT else "if_equal") for l in rows)):
        if l not in SHORT:
            i, w = l.short[0]
            one = f"one_key (keys_of list.{name}) c.args.v {word(w)} {i} refl refl (omega arith)"
            answers.append((arm(name), f"{TABLE} every one_of short_in", f"by_list _ list.{name} _ _ c.{arm(name)}.is (c.{place}.ensures ∙ {one})"))
    given, none = others(rows)
    answers.append((LAST, "list_of packs onto every one_of short_in none_short every_list among", f"no_short {given} c.args.list {none} c.args.v refl (omega arith)"))
    laws = of_words("list_of", "onto, pack, packs, keys_of, seek", "every", "short_in, none_short, every_list, among, one_key, no_short, by_list")
    return proof("short", "", [LIST, "use mathlib.Core.Path.{refl, ◌∙◌}", ARITH, RULES, bytes_of("bytes, one_of"), *laws], answers)


def any_long_proof():
    rows, answers = [l for l in ALL if l.long], []
    for l, (name, place) in zip(rows, called((l.name, l.stem("long") if l in LONG else "if_long") for l in rows)):
        if l not in LONG:
            i, w = l.long[0]
            one = f"(one_word middle (keys_of list.{name}) {MIDDLE} {word(w)} {i} _ c.{place}.ensures refl refl refl)"
            answers.append((arm(name), f"{TABLE} every one_of middle tail_in head_in", f"{ARGS}by_list _ list.{name} _ _ c.{arm(name)}.is {one}"))
    given, none = others(rows)
    answers.append((LAST, "list_of packs onto every one_of middle head_in none_from every_list among", f"{ARGS}no_word {given} args.list {none} middle {MIDDLE} refl"))
    laws = of_words(
        "list_of", "onto, pack, packs, keys_of, seek", "every", "middle, is_middle, tail_in, head_in, one_word, none_from, every_list, among, no_word, by_list"
    )
    return proof("long", "", [LIST, REFL, ARITH, RULES, bytes_of("bytes, one_of"), *laws], answers)


def any_longest_proof():
    given, none = others(LONGEST)
    answers = [(LAST, "list_of packs onto every one_of far head_in none_from every_list among", f"{ARGS}no_word {given} args.list {none} far {FAR} refl")]
    laws = of_words("list_of", "onto, packs", "every", "limb, far, is_far, head_in, none_from, every_list, among, no_word")
    return proof("longest", "", ["use Prim.Native.Nat.{◌+◌, ◌*◌}", LIST, REFL, ARITH, RULES, bytes_of("one_of"), *laws], answers)


def files():
    written = {f"{CRATE}/src/lib.rt": code(), f"{CRATE}/specs/ListMeans.antt": definition(), f"{CRATE}/proofs/Lists.antt": numbers()}
    for l in SHORT:
        written[f"{CRATE}/proofs/{l.stem('short')}/Answers.antt"] = short_proof(l)
    for l in LONG:
        written[f"{CRATE}/proofs/{l.stem('long')}/Answers.antt"] = long_proof(l)
        written |= {f"{CRATE}/proofs/{g.function}/Answers.antt": long_group_proof(l, g) for g in l.longs if not g.alone}
    for l in LONGEST:
        written[f"{CRATE}/proofs/{l.stem('longest')}/Answers.antt"] = longest_proof(l)
        written |= {f"{CRATE}/proofs/{g.function}/Answers.antt": longest_group_proof(l, g) for g in l.longests if not g.alone}
    written[f"{CRATE}/proofs/short/Answers.antt"] = any_short_proof()
    written[f"{CRATE}/proofs/long/Answers.antt"] = any_long_proof()
    written[f"{CRATE}/proofs/longest/Answers.antt"] = any_longest_proof()
    return written


def main():
    written = files()
    if sys.argv[1:] == ["--check"]:
        bad = [path for path, text in written.items() if not os.path.exists(path) or open(path).read() != text]
        for path in bad:
            print(f"{path} is not what tools/words.py writes")
        sys.exit(bool(bad))
    for path, text in written.items():
        os.makedirs(os.path.dirname(path), exist_ok=True)
        open(path, "w").write(text)


main()
