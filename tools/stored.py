#!/usr/bin/env python3
"""The stored cases that the programs `run_sheet_cases` and `run_script_cases` answer. A kind's cases are the lines of the file data/KIND/cases of its
program's crate; its answers stand in the crate's file stdout behind the line `== KIND`. Run it from the repository's root.

  stored.py answers KIND                write the kind's answers
  stored.py store KIND CASES ANSWERS    put the lines of two files in the place of the kind's cases and of its answers
"""
import os
import sys

# for each program its kinds, in the order in which it answers them
KINDS = {
    "run_sheet_cases": ("sheet", "check", "color", "convert", "line", "back", "plane", "wave"),
    "run_script_cases": ("script", "feed", "rounded", "book", "scratch", "number", "shelf"),
}


def program(kind):
    return next(name for name, kinds in KINDS.items() if kind in kinds)


def place(kind):
    return f"crates/{program(kind)}/data/{kind}/cases"


def answers(name):
    return f"crates/{name}/stdout"


def lines_of(path):
    with open(path, newline="\n") as file:
        return file.read().split("\n")[:-1]


def sections(name):
    """For each kind of a program its answers."""
    found = {kind: [] for kind in KINDS[name]}
    for line in lines_of(answers(name)) if os.path.exists(answers(name)) else []:
        if line.startswith("== "):
            section = found[line.removeprefix("== ")]
        else:
            section.append(line)
    return found


def stored_cases(kind):
    return lines_of(place(kind))


def stored_answers(kind):
    return sections(program(kind))[kind]


def write(path, lines):
    os.makedirs(os.path.dirname(path), exist_ok=True)
    with open(path, "w", newline="\n") as file:
        file.writelines(line + "\n" for line in lines)


def store(kind, its_cases, its_answers):
    """Puts these lines in the place of the kind's cases and of its answers; those of the other kinds stay."""
    name = program(kind)
    found = sections(name) | {kind: list(its_answers)}
    assert not any(line.startswith("== ") for section in found.values() for line in section)
    write(place(kind), its_cases)
    write(answers(name), [line for one in KINDS[name] for line in (f"== {one}", *found[one])])


def main():
    match sys.argv[1:]:
        case ["answers", kind]:
            sys.stdout.writelines(line + "\n" for line in stored_answers(kind))
        case ["store", kind, its_cases, its_answers] if any(kind in kinds for kinds in KINDS.values()):
            store(kind, lines_of(its_cases), lines_of(its_answers))
        case _:
            sys.exit(__doc__)


if __name__ == "__main__":
    main()
