#!/usr/bin/env python3
"""Strains a built program, by one of these commands.

    python3 scripts/stress NAME ..      runs it; its words go behind its name, and --help of most tells them
    python3 scripts/stress              lists the commands

Each is a module of this folder, whose first lines say what it does. The status is that of the command, or 2 where there is none of this name."""
import importlib
import os
import sys

COMMANDS = {
    "fuzz": ("fuzz", "random lines to the program and to the second reading"),
    "undone": ("undone", "start, anything, undo: each look-up says the same as before"),
    "faults": ("faults", "each request for memory of the program refused in turn"),
    "sanitize": ("sanitize", "the tests of the pool of nodes under AddressSanitizer"),
    "stall": ("stall", "batches of lines over loopback don't wait"),
    "soak": ("soak", "many clients over loopback, odd readers, a service for long"),
    "crash": ("crash", "a service killed under load, on bad disks, with damaged journals"),
    "crowd": ("crowd", "a service with all its places taken"),
    "service-faults": ("service_faults", "each request and call of the system of a service refused once"),
    "rates": ("rates", "lines a second of a service, and the time of a replay"),
    "waits": ("waits", "how long others wait while a long command runs, and through a restart"),
    "replicas": ("replica_test", "failures of members of a ledger and of etcd"),
    "replica-faults": ("replica_faults", "faults put into copies of the members' program"),
    "replica-loads": ("replica_loads", "bytes and times of members' checkpoints"),
    "window": ("window_test", "the window of `weltiyo web` in a browser"),
}
"""Each command with its module and what it does."""


def main(given):
    if not given or given[0] in ("-h", "--help"):
        print(__doc__)
        print()
        for name, (_, what) in COMMANDS.items():
            print(f"    {name:15} {what}")
        return 0 if given else 2
    if given[0] not in COMMANDS:
        print(f"stress: no command {given[0]}: there are {', '.join(COMMANDS)}", file=sys.stderr)
        return 2
    # (`stress` is a package below the folder of scripts, whose modules it uses; this folder's own are found by its name alone)
    sys.path[0] = os.path.dirname(os.path.dirname(os.path.abspath(__file__)))
    sys.argv = [f"stress {given[0]}", *given[1:]]
    return importlib.import_module(f"stress.{COMMANDS[given[0]][0]}").main()


if __name__ == "__main__":
    sys.exit(main(sys.argv[1:]))
