#!/usr/bin/env python3
"""Makes 1,860 scripts, six for each of 310 stores, and has two programs check them by turns: processor time (user and system) and wall clock
of each, the least and the median of the rounds, and their ratios. All scripts are accepted by both.
usage: run.py SHELFSTRIP RUST [ROUNDS]"""
import glob, os, statistics, subprocess, sys, tempfile, time

HERE = os.path.dirname(os.path.abspath(__file__))
EXAMPLES = sorted(glob.glob(os.path.join(HERE, "../../examples/*.strip")))
STORES = 310
SCRIPTS = STORES * len(EXAMPLES)
LEAST, MOST = 1024, 11264


def short(text, number):
    """An example as it stands."""
    return text


def long(text, number):
    """An example repeated to a length between the two limits, which grows from script to script."""
    size = LEAST + (MOST - LEAST) * number // (SCRIPTS - 1)
    return text * max(1, size // len(text))


def make(folder, form):
    """Writes the scripts: their paths, and the bytes of all."""
    texts = [open(path).read() for path in EXAMPLES]
    paths, total = [], 0
    for store in range(STORES):
        for kind, text in enumerate(texts):
            # each store has texts of its own
            script = form(text.replace('label "', f'label "{store:03} '), store * len(texts) + kind)
            path = os.path.join(folder, f"{store:03}-{kind}.strip")
            with open(path, "w") as file:
                total += file.write(script)
            paths.append(path)
    return paths, total


def once(program):
    """Runs a program: its processor time and wall clock, in milliseconds."""
    start = time.perf_counter()
    child = subprocess.Popen(program, stdout=subprocess.DEVNULL)
    _, status, used = os.wait4(child.pid, 0)
    wall = time.perf_counter() - start
    child.returncode = os.waitstatus_to_exitcode(status)
    assert child.returncode == 0, (program[0], child.returncode)
    return 1000 * (used.ru_utime + used.ru_stime), 1000 * wall


def measure(ours, rust, rounds):
    """The two by turns."""
    times = {"ours": [], "rust": []}
    # the first run of each brings the files to memory, and does not count
    once(ours), once(rust)
    for _ in range(rounds):
        times["ours"].append(once(ours))
        times["rust"].append(once(rust))
    return times


def row(name, total, times):
    cells = []
    for part in (0, 1):
        ours, rust = ([each[part] for each in times[which]] for which in ("ours", "rust"))
        cells += [f"{min(ours):.1f}", f"{min(rust):.1f}", f"{min(ours) / min(rust):.2f}"]
        cells += [f"{statistics.median(ours) / statistics.median(rust):.2f}"]
    print(f"| {name} | {total:,} | " + " | ".join(cells) + " |")


def main():
    ours, rust = sys.argv[1:3]
    rounds = int(sys.argv[3]) if len(sys.argv) > 3 else 25
    print(f"{SCRIPTS:,} scripts, {rounds} rounds, times in ms, the least of the rounds; a ratio is shelfstrip's to the Rust's")
    print("| scripts | bytes | processor, shelfstrip | processor, Rust | ratio | of medians | wall, shelfstrip | wall, Rust | ratio | of medians |")
    print("|---|---|---|---|---|---|---|---|---|---|")
    for name, form in (("the examples as they stand", short), ("repeated to 1 to 11 KB", long)):
        with tempfile.TemporaryDirectory() as folder:
            paths, total = make(folder, form)
            row(name, total, measure([ours, "check", *paths], [rust, *paths], rounds))


main()
