"""Answers lines as the program does, by a database of this process: those of standard input, over the tables of a schema's file where one
is named."""
import sys

import kit  # noqa: F401 (which finds the client)

from mi_client import Embedded, Ended


def main():
    try:
        db = Embedded.open(*sys.argv[1:])
    except Ended as fault:
        sys.exit(str(fault))
    with db:
        for line in sys.stdin.buffer:
            line = line.rstrip(b"\n")
            if line in (b"", b"\r"):
                continue
            # (the client sends no line of carriage returns alone)
            reply = db.ask_line(line) if line.strip(b"\r") else db._exchange(line + b"\n").decode()
            sys.stdout.buffer.write(reply.encode() + b"\n")


main()
