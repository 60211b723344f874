#!/usr/bin/env python3
"""Measures pages, and writes the figures: pages.py run OURS FIGURES [FOLDER]; pages.py page FIGURES

`run` opens pages of 40 flights, of 5,000 flights with some 93,000 periods (`make/shapes.py hubs`) and of 14,578 flights in weekly strips in
a browser (`pages.mjs`), and writes to the file FIGURES their bytes, the milliseconds until something is painted and until the page can be
used, and those of a filter, of a day at a hub and of the network: of the clock, and of the page's main thread; the best of five. The page
of a desk of 900,000 records, without messages and after 1,000 texts, is measured beside `list` of it and `diff` of its data set and it:
processor seconds and peak memory, the best of three. If FIGURES is there already, the better figures stay. `chromium` and `node` have to
be there. `page` writes the tables of bench/README.md, between the lines that mark their place.
"""
import json
import os
import resource
import subprocess
import sys
import tempfile

from measure import TOP, once
from chapter7 import write
from large import records as large_records
from shapes import records
from texts import write_texts

README = os.path.join(TOP, "bench", "README.md")
BEGIN, END = "<!--pages: bench/pages.py-->", "<!--/pages-->"
PAGES = [("40", "hubs", 40), ("5000", "hubs", 5_000), ("14578", "weeks", 14_578)]
RUNS, RECORDS, TEXTS = 3, 900_000, 1_000

# The rows of the table: what is measured, and the goals at 5,000 flights and at 14,578: milliseconds of the main thread, but for the
# first paint.
ROWS = [("first paint", 300, 300), ("usable", 1_000, 4_000), ("filter", 250, None), ("filter of a date", 250, None),
        ("cleared", None, None), ("a flight", None, None), ("a day at a hub", 500, None), ("network", None, None),
        ("sorted by time", None, None)]
COMMANDS = {"list": ["list", "large.desk"], "diff": ["diff", "large.ssim", "large.desk"], "page": ["page", "large.desk"],
            "page before": ["page", "none.desk"]}


def in_browser(program, folder):
    """Writes the pages, and opens them in a browser: for each page its bytes and its times."""
    for name, shape, flights in PAGES:
        write(os.path.join(folder, name + ".ssim"), records(shape, flights))
        with open(os.path.join(folder, name + ".html"), "wb") as file:
            subprocess.run([program, "page", name + ".ssim"], cwd=folder, stdout=file, check=True)
    words = ["node", os.path.join(TOP, "bench", "pages.mjs"), folder, *(name for name, _, _ in PAGES)]
    return json.loads(subprocess.run(words, stdout=subprocess.PIPE, check=True).stdout)


def processor_once(program, words, folder):
    """Processor seconds and peak bytes of one run."""
    before = resource.getrusage(resource.RUSAGE_CHILDREN)
    _, peak = once(program, words, folder)
    after = resource.getrusage(resource.RUSAGE_CHILDREN)
    return after.ru_utime - before.ru_utime + after.ru_stime - before.ru_stime, peak


def of_a_desk(program, folder):
    """Seconds and peak bytes of the page of a large desk, and of `list` and `diff`."""
    write(os.path.join(folder, "large.ssim"), large_records(RECORDS))
    open(os.path.join(folder, "none"), "w").close()
    once(program, ["start", "large.ssim", "none", "none.desk"], folder)
    texts, _ = write_texts(folder, "large.ssim", TEXTS)
    once(program, ["take", "none.desk", "large.desk", *texts], folder)
    found = {name: [] for name in COMMANDS}
    for _ in range(RUNS):
        for name, words in COMMANDS.items():
            found[name].append(processor_once(program, words, folder))
    return {name: [min(seconds for seconds, _ in runs), max(peak for _, peak in runs)] for name, runs in found.items()}


def better(old, new):
    """The lesser of figures of equal form."""
    if isinstance(new, dict):
        return {name: better(old.get(name, figures), figures) for name, figures in new.items()}
    if isinstance(new, list):
        return [better(*pair) for pair in zip(old, new)]
    return min(old, new)


def run(program, path, folder=None):
    """Measures everything, and writes the file of figures."""
    folder = os.path.abspath(folder or tempfile.mkdtemp())
    os.makedirs(folder, exist_ok=True)
    figures = {"pages": in_browser(os.path.abspath(program), folder), "desk": of_a_desk(os.path.abspath(program), folder)}
    if os.path.exists(path):
        with open(path, encoding="utf-8") as file:
            figures = better(json.load(file), figures)
    with open(path, "w", encoding="utf-8") as file:
        json.dump(figures, file, indent=1)
    print(tables(figures))


def row(cells):
    """A row of a table."""
    return "".join(f"| {cell} " if cell else "| " for cell in cells) + "|"


def browser_table(pages):
    """The table of the times in a browser."""
    def cell(page, what):
        times = [f"{time:,}" for time in page[what]]
        return times[0] if len(times) == 1 else f"{times[0]} ({times[1]})"

    def goal(number):
        return "" if number is None else f"{number:,}"

    middle, large = pages["5000"], pages["14578"]
    yield "| | 40 flights | 5,000 flights, 92,359 periods | Goal | 14,578 flights in weekly strips, 174,939 records | Goal |"
    yield "|---|---|---|---|---|---|"
    yield f"| bytes | {pages['40']['bytes']:,} | {middle['bytes']:,} | 7,000,000 | {large['bytes']:,} | |"
    for what, one, other in ROWS:
        cells = [what, cell(pages["40"], what), cell(middle, what), goal(one), cell(large, what), goal(other)]
        yield row(cells)


def desk_table(desk):
    """The table of the page of a large desk."""
    seconds, peak = (desk["list"][n] + desk["diff"][n] if n == 0 else desk["diff"][n] for n in range(2))
    yield "| Command | Processor seconds | Of `list` and `diff` | MiB | Of `diff` |"
    yield "|---|---|---|---|---|"
    for name, (time, memory) in desk.items():
        ratios = (f"{time / seconds:.2f}", f"{memory / peak:.2f}") if name.startswith("page") else ("", "")
        yield row([f"`{name}`", f"{time:.2f}", ratios[0], f"{memory / 2**20:.0f}", ratios[1]])


def tables(figures):
    """The tables as they are in the page."""
    text = [f"The page of a desk of {RECORDS:,} records after {TEXTS:,} texts, and before them, beside `list` of it and `diff` of its",
            "data set and it; the goal is 1.2 of both together in time, and 1.2 of `diff` in memory:"]
    return "\n".join([*browser_table(figures["pages"]), "", *text, "", *desk_table(figures["desk"])])


def page(path):
    """Writes the tables into the page."""
    with open(path, encoding="utf-8") as file:
        made = tables(json.load(file))
    with open(README, encoding="utf-8") as file:
        begin, _, rest = file.read().partition(BEGIN)
    with open(README, "w", encoding="utf-8") as file:
        file.write(f"{begin}{BEGIN}\n{made}\n{END}{rest.partition(END)[2]}")


if __name__ == "__main__":
    if len(sys.argv) < 3 or sys.argv[1] not in ("run", "page"):
        sys.exit(__doc__)
    {"run": run, "page": page}[sys.argv[1]](*sys.argv[2:])
