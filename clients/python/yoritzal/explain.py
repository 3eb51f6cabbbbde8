"""Says in words what a line of `replay` names.

    python3 -m yoritzal.explain JOURNALS < LINE

JOURNALS is the file that was judged. Of each line that is read it prints the entry that it names, the Ask that this names, and
what was due; or what can't stand at the byte.
"""
import sys

from .fields import Malformed
from .journals import read_journals


def explained(data, line):
    """The same as lines, of the bytes of journals."""
    try:
        return read_journals(data).explained(line)
    except Malformed as fault:
        return [line, str(fault)]


def main(words):
    if len(words) != 1:
        print(__doc__, file=sys.stderr)
        return 2
    with open(words[0], "rb") as file:
        data = file.read()
    for line in sys.stdin:
        print(*explained(data, line.rstrip("\n")), sep="\n")
    return 0


if __name__ == "__main__":
    sys.exit(main(sys.argv[1:]))
