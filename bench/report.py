#!/usr/bin/python3
"""report.py BUILD [DOCS [RUN...]]: runs the benchmark's programs and FabIO, prints their tables, and puts tables and plot into DOCS.
Where runs are named, only those; their tables then say themselves what they were made with."""
import os
import pathlib
import re
import subprocess
import sys

import fabio
import fabio_rows
import plot


def run(build, program):
    lines = []
    with subprocess.Popen([str(build / program)], stdout=subprocess.PIPE, text=True) as ran:
        for line in ran.stdout:
            print(line, end="", flush=True)
            lines.append(line.rstrip("\n"))
    if ran.returncode:
        sys.exit(f"{program} ended with status {ran.returncode}")
    return lines


def cells(row):
    return [cell.strip() for cell in row.strip("|").split("|")]


def summary(rows, column, mark):
    """How many rows stay at or below a ratio, and the largest."""
    ratios = [(float(cells(row)[column]), ", ".join(cells(row)[:2])) for row in rows]
    largest, name = max(ratios)
    below = sum(ratio <= mark for ratio, _ in ratios)
    return f"{below} of {len(ratios)} rows are at or below {mark}. The largest ratio is {largest} ({name})."


def rows_of(lines, start):
    return [line for line in lines[2:] if line.startswith(f"| {start}")]


def part(lines, start, column, mark):
    """A table of the rows that start so, with its summary."""
    rows = rows_of(lines, start)
    return "\n".join([*lines[:2], *rows, "", summary(rows, column, mark)])


def held_part(lines):
    calls = ("Correction", "Amending", "Withdrawal")
    text = [f"{call}: {summary(lines[2:], 9 + at, 1.5)}" for at, call in enumerate(calls)]
    return "\n".join([*lines, "", *text])


def put(page, name, text):
    """Replaces what stands between a table's two marks."""
    found = re.compile(rf"(<!-- table {name} -->\n).*?(\n<!-- end -->)", re.S)
    page, times = found.subn(lambda marks: marks[1] + text + marks[2], page)
    if times != 1:
        sys.exit(f"the page has {times} places for the table {name}")
    return page


def first_line(*words):
    return subprocess.run(words, check=True, capture_output=True, text=True).stdout.splitlines()[0]


def machine(before):
    """What the run was made with."""
    model = re.search(r"model name\s*: (.*)", pathlib.Path("/proc/cpuinfo").read_text())
    tools = [first_line("gcc", "--version"), first_line("clang", "--version"), f"FabIO {fabio.version}"]
    cores = f"{os.cpu_count()} cores of {model[1] if model else 'an unknown processor'}"
    return f"One run: {'; '.join(tools)}; {cores}; load {before[0]:.1f} before it and {os.getloadavg()[0]:.1f} after."


def bench_tables(build):
    lines = run(build, "bench")
    return {"reading": part(lines, "read", 6, 1.0), "writing": part(lines, "write", 6, 1.0)}


def compact_tables(build):
    """Three tables without a mark."""
    lines = run(build, "compact")
    return {call: "\n".join([*lines[:2], *rows_of(lines, call)]) for call in ("compact", "purge", "why")}


def fabio_table(build):
    theirs = fabio_rows.table(build)
    print(theirs)
    return {"fabio": theirs}


# What is run, and the tables that it makes.
RUNS = {
    "bench": bench_tables,
    "held": lambda build: {"held": held_part(run(build, "held"))},
    "listing": lambda build: {"listing": part(run(build, "listing"), "list", 6, 1.0)},
    "mar": lambda build: {"mar": part(run(build, "mar"), "read", 6, 1.0)},
    "dtrek": lambda build: {"dtrek": part(run(build, "dtrek"), "read", 6, 1.0)},
    "dtrek_header": lambda build: {"dtrek_header": "\n".join(run(build, "dtrek_header"))},
    "compact": compact_tables,
    "smallest": lambda build: {"smallest": part(run(build, "smallest"), "smallest", 6, 1.0)},
    "fabio": fabio_table,
}


def update(docs, tables):
    """The page with these tables, and the plot of all that it then has."""
    page = (docs / "BENCHMARKS.md").read_text()
    for name, text in tables.items():
        page = put(page, name, text)
    (docs / "BENCHMARKS.md").write_text(page)
    plot.draw(dict(re.findall(r"<!-- table (\w+) -->\n(.*?)\n<!-- end -->", page, re.S)), docs / "benchmarks.png")


def main():
    build, only = pathlib.Path(sys.argv[1]), sys.argv[3:]
    before = os.getloadavg()
    tables = {}
    for name in only or RUNS:
        tables.update(RUNS[name](build))
    said = machine(before)
    print(said)
    if only:
        tables = {name: f"{text}\n\n{said}" for name, text in tables.items()}
    else:
        tables["machine"] = said
    if len(sys.argv) > 2:
        update(pathlib.Path(sys.argv[2]), tables)


if __name__ == "__main__":
    main()
