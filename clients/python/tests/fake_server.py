#!/usr/bin/env python3
"""Answers every line at once, whatever it says, so that the client alone is measured and tried. `--reply N` makes each reply N
bytes long, and `--piece N` reads N bytes at a time and writes all their replies before it reads on, as the server does."""
import argparse
import os

REVISION = b'{"depth":0,"held":0,"ok":true,"revision":0}\n'


def main() -> None:
    parser = argparse.ArgumentParser()
    parser.add_argument("--reply", type=int, default=18)
    parser.add_argument("--piece", type=int, default=65_536)
    options = parser.parse_args(os.environ.get("FAKE_SERVER", "").split())
    reply = b'{"id":0,"ok":true}'
    reply = reply + b" " * (options.reply - len(reply)) + b"\n"
    is_first = True
    while True:
        data = os.read(0, options.piece)
        if not data:
            return
        lines = data.count(b"\n")
        out = reply * lines
        if is_first and lines:
            out, is_first = REVISION + reply * (lines - 1), False
        while out:
            out = out[os.write(1, out):]


if __name__ == "__main__":
    main()
