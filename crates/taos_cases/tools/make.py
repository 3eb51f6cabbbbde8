#!/usr/bin/env python3
"""Writes the conversations: data/*.txt, and the words and the output of the stored run.

    make.py [--check]

With `--check` nothing is written; it ends with 1 where a file is not as it would be written.
"""
import os
import sys

from cases import THEMES, TRIED
from checking import fault
from conversation import file_text

HERE = os.path.dirname(os.path.dirname(os.path.abspath(__file__)))


def faults():
    """What cases state otherwise than the shards of tools/shard.py have it."""
    return [f"{theme}: {wrong}" for theme, _, cases in THEMES + TRIED for wrong in map(fault, cases()) if wrong]


def files():
    """The files by their names, and how many conversations there are."""
    made, count = {}, 0
    for theme, about, cases in THEMES + TRIED:
        told = cases()
        count += len(told) if (theme, about, cases) in THEMES else 0
        made[f"data/{theme}.txt"] = file_text(about, told)
    made["args"] = "".join(f"{theme}.txt\n" for theme, _, _ in THEMES)
    made["stdout"] = f"{count} conversations, 0 differ\n"
    return made


def stored(path):
    try:
        with open(os.path.join(HERE, path), encoding="ascii") as file:
            return file.read()
    except FileNotFoundError:
        return None


def strangers(made):
    """Conversations that no theme makes."""
    folder = os.path.join(HERE, "data")
    names = sorted(os.listdir(folder)) if os.path.isdir(folder) else []
    return [f"data/{each}" for each in names if f"data/{each}" not in made]


def check(made):
    wrong = [path for path, text in made.items() if stored(path) != text] + strangers(made)
    for path in wrong:
        print(f"{path} is not as it would be written")
    return 1 if wrong else 0


def write(made):
    os.makedirs(os.path.join(HERE, "data"), exist_ok=True)
    for path in strangers(made):
        os.remove(os.path.join(HERE, path))
    for path, text in made.items():
        with open(os.path.join(HERE, path), "w", encoding="ascii") as file:
            file.write(text)
    return 0


def main(words):
    if words not in ([], ["--check"]):
        print(__doc__, end="", file=sys.stderr)
        return 2
    wrong = faults()
    if wrong:
        print("\n".join(wrong))
        return 1
    return check(files()) if words else write(files())


if __name__ == "__main__":
    sys.exit(main(sys.argv[1:]))
