#!/usr/bin/env python3
"""Compares the figures of the desk's HTML page in headless Chromium with those of --json, and the lengths of its bars with the figures.
Leaves FOLDER/page.html, page.png and page.pdf. usage: page.py PROGRAM FOLDER"""
import glob, json, os, shutil, subprocess, sys, tempfile
from html.parser import HTMLParser
import png

HERE = os.path.dirname(os.path.abspath(__file__))
EXAMPLES = sorted(glob.glob(os.path.join(HERE, "../../../examples/*.strip")))
PROGRAM, FOLDER = (os.path.abspath(path) for path in sys.argv[1:3])
BAR = (0x44, 0x55, 0x66)
REFUSED = {"a&b.strip": "preset fadein", "<c>.strip": "at 1; preset x", "d.strip": "tween"}


class Figures(HTMLParser):
    """The texts of what has an id: of a figure its text, of a table its rows of cells."""

    def __init__(self):
        super().__init__()
        self.figures, self.tables, self.figure, self.table = {}, {}, None, None

    def handle_starttag(self, tag, attributes):
        name = dict(attributes).get("id")
        if tag == "dd":
            self.figure, self.figures[name] = name, ""
        elif tag == "table":
            self.table = self.tables[name] = []
        elif tag == "tr":
            self.table.append([])
        elif tag in ("td", "th"):
            self.table[-1].append("")

    def handle_endtag(self, tag):
        if tag == "dd":
            self.figure = None
        elif tag == "table":
            self.table = None

    def handle_data(self, data):
        if self.figure:
            self.figures[self.figure] += data
        elif self.table and self.table[-1]:
            self.table[-1][-1] += data.rstrip("\n")


# One picture on every machine, nothing fetched, and no shared memory, which a container may lack.
FIXED = ["--headless", "--no-sandbox", "--disable-gpu", "--disable-dev-shm-usage", "--hide-scrollbars", "--force-device-scale-factor=1"]
FIXED += ["--force-color-profile=srgb", "--window-size=800,1300", "--no-first-run", "--disable-background-networking"]
FIXED += ["--disable-component-update", "--disable-sync", "--disable-extensions"]


def chromium(browser, room, *arguments):
    """Runs the browser, a second time if the first fails: what it prints, or None."""
    for attempt in range(2):
        command = [browser, *FIXED, f"--user-data-dir={room}/browser-{attempt}", "--dump-dom", *arguments]
        try:
            ran = subprocess.run(command, stdout=subprocess.PIPE, stderr=subprocess.DEVNULL, timeout=120)
        except subprocess.TimeoutExpired:
            continue
        if ran.returncode == 0 and ran.stdout:
            return ran.stdout.decode()
    return None


def mean(fraction):
    """A mean as the page writes it."""
    if fraction is None:
        return "none"
    above, below = fraction["numerator"], fraction["denominator"]
    return str(above) if below == 1 else f"{above / below:.2f} ({above}/{below})"


def compare_figures(page, totals):
    """The page's figures and tables with those of --json."""
    refused = totals["scripts"] - totals["accepted"]
    assert page.figures == {
        "scripts": str(totals["scripts"]),
        "accepted": str(totals["accepted"]),
        "refused": str(refused),
        "uncounted": str(len(totals["not_counted"])),
        "entries": str(totals["entries"]),
        "records-per-script": mean(totals["records_per_script"]),
        "entries-per-track": mean(totals["entries_per_track"]),
        "colors": totals["colors"],
    }, page.figures
    causes = [[f"{each['number']} {each['name']}: {each['cause']}", str(each["scripts"]), ""] for each in totals["refused"]]
    assert page.tables["causes"][1:] == causes, page.tables["causes"]
    kinds = {row[0]: int(row[1]) for row in page.tables["kinds"][1:]}
    assert kinds == totals["records"], kinds
    scripts = [[each["file"], f"{each['line']}:{each['column']}", f"{each['number']} {each['name']}"] for each in totals["refused_scripts"]]
    assert page.tables["refused-scripts"][1:] == scripts, page.tables["refused-scripts"]
    assert page.tables["not-counted"][1:] == [[each["file"], each["reason"]] for each in totals["not_counted"]]


def bar_lengths(rows):
    """The lengths of the bars in a picture, from the top. A few pixels are no bar."""
    lengths, before = [], 0
    for row in rows:
        length = row.count(BAR) if row.count(BAR) > 3 else 0
        if length and not before:
            lengths.append(length)
        before = length
    return lengths


def compare_bars(rows, page):
    """The bars with the figures: in each table the lengths are to each other as the figures."""
    lengths = bar_lengths(rows)
    tables = [[int(row[1]) for row in page.tables[name][1:] if row[1] != "0"] for name in ("causes", "kinds")]
    assert len(lengths) == sum(map(len, tables)), lengths
    for figures in tables:
        own, lengths = lengths[: len(figures)], lengths[len(figures) :]
        # 2 pixels of border, and half a pixel on each side
        longest = max(own) + 2
        for length, figure in zip(own, figures):
            assert abs(length + 2 - longest * figure / max(figures)) <= 2, (own, figures)
    return sum(map(len, tables))


def main():
    browser = next(filter(None, map(shutil.which, ("chromium", "chromium-browser", "google-chrome"))), None)
    if browser is None:
        print("shelfstrip's page: not drawn, there is no Chromium")
        return
    with tempfile.TemporaryDirectory(ignore_cleanup_errors=True) as room:
        for name, text in REFUSED.items():
            with open(os.path.join(room, name), "w") as file:
                file.write(text)
        arguments = [PROGRAM, "morning", *EXAMPLES, *REFUSED, "none"]
        subprocess.run([*arguments, "--html", f"{FOLDER}/page.html"], cwd=room, stderr=subprocess.DEVNULL)
        told = subprocess.run([*arguments, "--json"], cwd=room, stdout=subprocess.PIPE, stderr=subprocess.DEVNULL)
        assert told.returncode == 2
        for name in ("page.png", "page.pdf"):
            if os.path.exists(f"{FOLDER}/{name}"):
                os.remove(f"{FOLDER}/{name}")
        drawings = [f"--screenshot={FOLDER}/page.png", f"--print-to-pdf={FOLDER}/page.pdf"]
        told_page = chromium(browser, room, *drawings, f"file://{FOLDER}/page.html")
        if told_page is None and chromium(browser, room, "about:blank") is None:
            print("shelfstrip's page: not drawn, Chromium does not run here")
            return
        assert told_page is not None, "Chromium does not draw the page"
        page = Figures()
        page.feed(told_page)
        compare_figures(page, json.loads(told.stdout))
        bars = compare_bars(png.read(f"{FOLDER}/page.png"), page)
    with open(f"{FOLDER}/page.pdf", "rb") as file:
        assert file.read(5) == b"%PDF-"
    print(f"shelfstrip's page in Chromium: {len(page.figures)} figures, {len(page.tables)} tables and {bars} bars compared")


main()
