"""What crates.txt says of this repository's crates, sums of their files, and copies of them: for the scripts of this folder."""
import functools
import hashlib
import os
import shutil
import subprocess

TOP = os.path.dirname(os.path.dirname(os.path.realpath(__file__)))
CACHE = os.path.join(os.environ.get("XDG_CACHE_HOME") or os.path.expanduser("~/.cache"), "yoritzal")
# What a proof reads, and what a program is run on beside it.
READ = ("src", "specs", "proofs")
PARTS = (*READ, "data", "must-fail")
FILES = ("README.md", "args", "stdin", "stdout", "status")


def lines_of_crates():
    """Each crate's line of crates.txt, by its name."""
    with open(os.path.join(TOP, "crates.txt"), encoding="utf-8") as file:
        lines = [line.rstrip("\n") for line in file if line.strip() and not line.startswith("#")]
    return {line.split(":")[0].split()[0]: line for line in lines}


LINES = lines_of_crates()


@functools.lru_cache(None)
def below(name):
    """The repository's crates that a crate stands on, itself not."""
    found = set()
    for other in LINES[name].split(":")[1].split():
        if other in LINES:
            found |= {other} | below(other)
    return frozenset(found)


def folder_of(name):
    return os.path.join(TOP, "crates", name)


def files_of(name, parts):
    """The files of some folders of a crate, in order."""
    for part in parts:
        for folder, folders, files in os.walk(os.path.join(folder_of(name), part)):
            folders.sort()
            yield from (os.path.join(folder, each) for each in sorted(files))


@functools.lru_cache(None)
def kit():
    """The kit, as it names itself."""
    return subprocess.run(["rt", "version"], capture_output=True, text=True, check=True).stdout.strip()


def sum_of(name, parts, own=()):
    """A sum of the kit and of a crate with those below it: their lines of crates.txt, the files of these folders, and of its own ones."""
    found = hashlib.sha256(kit().encode())
    for each in sorted({name} | below(name)):
        found.update(repr(LINES[each]).encode())
        for path in files_of(each, (*parts, *own) if each == name else parts):
            with open(path, "rb") as file:
                found.update(repr((os.path.relpath(path, TOP), file.read())).encode())
    return found.hexdigest()


def copied(name, tree):
    """Makes a tree's copy of a crate and those below it what the repository is now. What was proved there before stays."""
    names = below(name) | {name}
    for each in names:
        to = os.path.join(tree, "crates", each)
        os.makedirs(to, exist_ok=True)
        for part in PARTS:
            shutil.rmtree(os.path.join(to, part), ignore_errors=True)
            if os.path.isdir(os.path.join(folder_of(each), part)):
                shutil.copytree(os.path.join(folder_of(each), part), os.path.join(to, part))
        for file in FILES:
            if os.path.isfile(os.path.join(folder_of(each), file)):
                shutil.copy2(os.path.join(folder_of(each), file), to)
    with open(os.path.join(tree, "crates.txt"), "w", encoding="utf-8") as file:
        file.write("".join(LINES[each] + "\n" for each in sorted(names)))
    shutil.copy2(os.path.join(TOP, "HANDLES"), tree)
