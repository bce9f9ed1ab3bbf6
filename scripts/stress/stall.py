"""Whether batches of lines over one loopback connection are answered without waiting: lines a second, by the size of the batch.

    stress stall [--program FILE] [--seconds S] [--rounds N]

A client without Nagle's delay (TCP_NODELAY) sends a batch of lines, reads all their replies, and sends the next one. A batch of more
than 4,096 bytes is read in several pieces, whose replies go out one after another. Where the server's side holds the second of them
back until the client has acknowledged the first, each such batch takes some 40 ms longer, however short it is. So of each kind of
lines each size of a batch must have at least a third of the lines a second of the fastest. Where it has fewer, but a batch of it takes
less than 10 ms more than the fastest would take for as many lines, nothing waited: that is the machine, or what each batch costs beside
its lines.

The first kind are inserts that are refused as `unique`, so that the table stays as it is. The second kind are long lines that are
refused as `json`, since they cost little for their bytes: by them the wait shows on a program that is slow by itself too, as the one
that was compiled without proofs. Of each size the best of up to N rounds counts, S seconds each, and no further round is run once
the sizes are even: a machine that is busy makes some rounds slow, and a wait makes all of them slow. The status is 0 where both kinds
are even, else 1."""
import argparse
import os
import socket
import subprocess
import sys
import time

import program
from stress.fault_runs import connected

LINE = b'{"cmd":"insert","row":{"owner":"somebody","balance":100,"vip":true}}\n'
KINDS = [(LINE, (40, 61, 100, 300, 1_000)), (b"x" * 999 + b"\n", (4, 8, 16))]
"""Lines, and how many of them make a batch."""
SHARE = 3
"""The slowest has at least the fastest's lines a second, divided by this."""
WAIT = 0.010
"""Seconds that a batch must take beyond those of the fastest's rate to count as one that waits: a quarter of an acknowledgement's delay."""
WARM = 30
"""Lines by themselves before anything is measured: at first a connection acknowledges at once."""


def stop(why):
    sys.exit(f"stall: {why}")


def ask(stream, line, count):
    """Sends so many lines as one batch, and reads all their replies."""
    stream.sendall(line * count)
    lines = 0
    while lines < count:
        got = stream.recv(1 << 16)
        if not got:
            stop("the program has closed the connection")
        lines += got.count(b"\n")


def rate(stream, line, window, seconds):
    """Lines a second in batches of so many, over so many seconds and at least one batch."""
    began, asked = time.monotonic(), 0
    while True:
        ask(stream, line, window)
        asked += window
        took = time.monotonic() - began
        if took >= seconds:
            return asked / took


def waiting(rates):
    """The sizes whose batches wait, of the lines a second of each size."""
    fastest = max(rates.values())
    return [size for size, rate in rates.items() if rate * SHARE < fastest and size / rate - size / fastest >= WAIT]


def best_rates(stream, line, windows, seconds, rounds):
    """The best lines a second of each size of a batch. Ends after the first round in which none is behind."""
    best = dict.fromkeys(windows, 0.0)
    for _ in range(rounds):
        for window in windows:
            best[window] = max(best[window], rate(stream, line, window, seconds))
        if not waiting(best):
            break
    return best


def measured(stream, seconds, rounds):
    """Prints the rates of each kind over a connection, and answers whether all are even."""
    stream.setsockopt(socket.IPPROTO_TCP, socket.TCP_NODELAY, 1)
    for _ in range(WARM):
        ask(stream, LINE, 1)
    well = True
    for line, windows in KINDS:
        best = best_rates(stream, line, windows, seconds, rounds)
        print(f"lines of {len(line):,} bytes: " + ", ".join(f"{lines:,.0f} a second by {window:,}" for window, lines in best.items()), flush=True)
        for window in waiting(best):
            well = False
            print(f"stall: batches of {window:,} wait: they have less than 1/{SHARE} of the lines a second of the fastest")
    return well


def main():
    parser = argparse.ArgumentParser(description=__doc__, formatter_class=argparse.RawDescriptionHelpFormatter)
    parser.add_argument("--program", metavar="FILE")
    parser.add_argument("--seconds", type=float, default=0.15, metavar="S")
    parser.add_argument("--rounds", type=int, default=5, metavar="N")
    options = parser.parse_args()
    path, port = os.path.abspath(options.program or program.program()), program.free_port()
    print(program.title(path))
    with subprocess.Popen([path, "--listen", str(port), "--clients", "1"], stdin=subprocess.DEVNULL) as server:
        try:
            stream = connected(server, port) or stop(f"the program ended with {server.wait()}")
            with stream:
                return 0 if measured(stream, options.seconds, options.rounds) else 1
        finally:
            server.kill()
