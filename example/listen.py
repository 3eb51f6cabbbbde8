#!/usr/bin/env python3
"""Runs a command for each connection, with the connection as its standard streams, all of them side by side.

    listen.py PORT COMMAND..

The listener takes a free port of 127.0.0.1, and writes its number to the file PORT. A command ends once its connection has.
"""
import os
import socket
import subprocess
import sys


def main(words):
    if len(words) < 2:
        print(__doc__, end="", file=sys.stderr)
        return 2
    path, command = words[0], words[1:]
    with socket.create_server(("127.0.0.1", 0)) as listener:
        with open(path + ".new", "w", encoding="ascii") as file:
            file.write(f"{listener.getsockname()[1]}\n")
        os.rename(path + ".new", path)
        running = []
        while True:
            connection, _ = listener.accept()
            with connection:
                running.append(subprocess.Popen(command, stdin=connection, stdout=connection))
            running = [each for each in running if each.poll() is None]


if __name__ == "__main__":
    sys.exit(main(sys.argv[1:]))
