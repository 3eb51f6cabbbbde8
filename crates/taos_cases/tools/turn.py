#!/usr/bin/env python3
"""Shows that each conversation can fail.

    turn.py RUNNER [FILE..]

For each one a digit of what must be written is turned in a copy of its file, or a letter of its note, or its
status. The runner, the built program of this crate, has to name that conversation and no other, and to end
with 1. Files are those of data/ where none is named. Ends with 1 where one is not named.
"""
import concurrent.futures
import os
import re
import subprocess
import sys
import tempfile
import zlib

from reading import all_files

PROCESSES, LIMIT = 4, 900
WRITTEN, NOTED = ["output", "grant", "hears", "wallet-hears"], ["note", "note-front"]


def spans_of(lines):
    """The name of each conversation, its first line and the one behind its last."""
    starts = [at for at, line in enumerate(lines) if line.startswith("case ")]
    return [(lines[start][5:], start, end) for start, end in zip(starts, starts[1:] + [len(lines)])]


def digit_places(line, at):
    """Where digits of bytes stand in a line."""
    text = line.split(" *")[0]
    if line.startswith("grant "):
        text = text.split(" certificates ")[0]
    first = text.index(" ") + 1 if " " in text else len(text)
    names = {at for found in re.finditer(r"\$\S+", text) for at in range(*found.span())}
    return [(at, place) for place in range(first, len(text)) if text[place] != " " and place not in names]


def places_of(lines, start, end):
    """Where a conversation may be turned."""
    for keys in (WRITTEN, NOTED):
        found = []
        for at in range(start, end):
            key = lines[at].split(" ")[0]
            if key in keys and keys is WRITTEN:
                found += digit_places(lines[at], at)
            elif key in keys:
                found += [(at, place) for place in range(len(key) + 1, len(lines[at])) if lines[at][place] != " "]
        if found:
            return found
    return [(at, len(lines[at]) - 1) for at in range(start, end) if lines[at].startswith("status ")]


def turned(lines, at, place):
    """The lines with another digit, or another letter, at this place."""
    other = {"0": "1"}.get(lines[at][place], "0" if lines[at][place].isalnum() else "x")
    line = lines[at][:place] + other + lines[at][place + 1 :]
    return lines[:at] + [line] + lines[at + 1 :]


def fault(runner, name, file, lines):
    """What is wrong with what the runner says of these lines, if anything is."""
    with tempfile.TemporaryDirectory() as folder:
        with open(os.path.join(folder, file), "w", encoding="ascii") as out:
            out.write("\n".join(lines) + "\n")
        run = subprocess.run([runner, file], cwd=folder, capture_output=True, text=True, timeout=LIMIT)
    *said, last = run.stdout.splitlines() or [""]
    front = f"{file}: {name}: "
    if run.returncode != 1 or not last.endswith(", 1 differ") or not said:
        return f"status {run.returncode}, {last} {run.stderr.strip()}"
    others = [line for line in said if not line.startswith((front + "whole: ", front + "byte by byte: "))]
    return f"it says {others[0]}" if others else None


def tasks_of(path):
    """Each conversation's name, and the file with a place of it turned."""
    with open(path, encoding="ascii") as file:
        lines = file.read().splitlines()
    for name, start, end in spans_of(lines):
        places = places_of(lines, start, end)
        at, place = places[zlib.crc32(name.encode()) % len(places)]
        yield name, os.path.basename(path), turned(lines, at, place), f"line {at + 1}, column {place + 1}"


def main(words):
    if not words:
        print(__doc__, end="", file=sys.stderr)
        return 2
    runner = os.path.abspath(words[0])
    tasks = [task for path in words[1:] or all_files() for task in tasks_of(path)]
    named = 0
    with concurrent.futures.ThreadPoolExecutor(PROCESSES) as pool:
        wrong = pool.map(lambda task: fault(runner, *task[:3]), tasks)
        for (name, file, _, where), why in zip(tasks, wrong):
            named += why is None
            if why is not None:
                print(f"{file}: {name}: {where}: {why}")
    print(f"{named} of {len(tasks)} turned bytes were named")
    return 0 if named == len(tasks) else 1


if __name__ == "__main__":
    sys.exit(main(sys.argv[1:]))
