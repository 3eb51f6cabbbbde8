#!/usr/bin/env python3
"""What stands round the command `path`, from standard input to standard output.

    carried.py frame | show

`frame` writes the certificate of a line as `mint` prints it as one frame; `show` tells of each line that `path` prints which
domains the certificate visited, or that it is for a node, and that it says the same as the first.
"""
import os
import sys

sys.path.insert(0, os.path.join(os.path.dirname(os.path.abspath(__file__)), "..", "clients", "python"))

from yoritzal import CARRIED, body_of, visited  # noqa: E402


def frame():
    certificate = bytes.fromhex(sys.stdin.read())
    sys.stdout.buffer.write(len(certificate).to_bytes(4, "big") + certificate)


def show():
    lines = [bytes.fromhex(line) for line in sys.stdin]
    for line in lines:
        told = f"visited {', '.join(map(str, visited(line)))}" if line[0] == CARRIED else "for the node"
        same = body_of(line) == body_of(lines[0])
        print(f"{told}: {len(line)} bytes, {'the same' if same else 'another'} body")


if __name__ == "__main__":
    {"frame": frame, "show": show}[sys.argv[1]]()
