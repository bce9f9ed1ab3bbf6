#!/usr/bin/env python3
"""A tour of five minutes: one table under four orders, a fork that is unwound, places that come back.

    tour.py [--program FILE]

Each step says in a line what it shows, and then asks the program: each command is printed as it is sent, and its reply as it comes. At a
terminal Enter goes on and `q` ends; else all steps run without waiting. The program is FILE, else the one that the other scripts take: the
proved one where it is up to date, else one that is compiled without proofs first. The status is 0 where each step that is to show again what
stood before does, else 1."""
import argparse
import os
import sys

import program

sys.path.insert(0, f"{program.TOP}/clients/python")
from mi_client import Database  # noqa: E402

CHAPTERS = [
    ("One table, four orders", [
        ("Four accounts come. Each gets a number, its id.", [
            '{"cmd":"insert","row":{"owner":"ann","balance":50,"vip":false}}',
            '{"cmd":"insert","row":{"owner":"bob","balance":7,"vip":true}}',
            '{"cmd":"insert","row":{"owner":"cid","balance":50,"vip":false}}',
            '{"cmd":"insert","row":{"owner":"dan","balance":120,"vip":true}}',
        ]),
        ("`by_owner` is hashed: it finds a whole key, and no two accounts may have one.", [
            '{"cmd":"find","index":"by_owner","key":["cid"]}',
            '{"cmd":"insert","row":{"owner":"cid","balance":1,"vip":false}}',
        ]),
        ("`by_balance` is ranked: it stands in the order of the balance. Of equals the earlier is first.", [
            '{"cmd":"range","index":"by_balance","lower":{"ge":[10]}}',
        ]),
        ("It knows places, too: two accounts stand before cid, and the last of four is dan.", [
            '{"cmd":"rank","index":"by_balance","id":2}',
            '{"cmd":"nth","index":"by_balance","n":3}',
        ]),
        ("`by_class` is ordered by two columns: those with `vip` first, each group by its balance.", [
            '{"cmd":"range","index":"by_class","limit":3}',
        ]),
        ("`line` is sequenced: a list whose order you make. Dan is moved before ann.", [
            '{"cmd":"relocate","index":"line","id":3,"before":0}',
            '{"cmd":"list","index":"line","limit":2}',
        ]),
    ]),
    ("A fork that is unwound", [
        ("Block 1 begins: `start` opens a session. Ann pays 20 to bob.", [
            '{"cmd":"start"}',
            '{"cmd":"modify","id":0,"add":{"balance":-20}}',
            '{"cmd":"modify","id":1,"add":{"balance":20}}',
        ]),
        ("These are the accounts behind block 1.", [
            '{"cmd":"range","index":"id"}',
        ], "block 1"),
        ("Block 2 comes on top, in a session of its own: dan pays, cid goes, eve comes.", [
            '{"cmd":"start"}',
            '{"cmd":"modify","id":3,"add":{"balance":-100}}',
            '{"cmd":"erase","id":2}',
            '{"cmd":"insert","row":{"owner":"eve","balance":9,"vip":false}}',
        ]),
        ("Word comes that block 2 was of a fork. `undo` takes all of it back.", [
            '{"cmd":"undo"}',
        ]),
        ("The accounts are those behind block 1 again, cid among them.", [
            '{"cmd":"range","index":"id"}',
        ], "block 1"),
        ("Another block 2: fay gets the id that eve had, for ids come back too.", [
            '{"cmd":"start"}',
            '{"cmd":"insert","row":{"owner":"fay","balance":9,"vip":false}}',
        ]),
        ("Block 1 is final: `commit` ends its session for good. One session is open still.", [
            '{"cmd":"commit","revision":1}',
            '{"cmd":"revision"}',
        ]),
        ("So block 2 can be undone, and block 1 can't any more.", [
            '{"cmd":"undo"}',
            '{"cmd":"undo"}',
        ]),
    ]),
    ("Places that come back", [
        ("Gus comes with the balance of cid, and stands behind him.", [
            '{"cmd":"insert","row":{"owner":"gus","balance":50,"vip":false}}',
            '{"cmd":"range","index":"by_balance","lower":{"ge":[50]},"upper":{"le":[50]}}',
        ], "equals"),
        ("This is the list.", [
            '{"cmd":"list","index":"line"}',
        ], "list"),
        ("In a session cid goes to 51 and back to 50. Now he stands behind gus.", [
            '{"cmd":"start"}',
            '{"cmd":"modify","id":2,"add":{"balance":1}}',
            '{"cmd":"modify","id":2,"add":{"balance":-1}}',
            '{"cmd":"range","index":"by_balance","lower":{"ge":[50]},"upper":{"le":[50]}}',
        ]),
        ("Ann goes to the end of the list, and bob out of all.", [
            '{"cmd":"relocate","index":"line","id":0}',
            '{"cmd":"erase","id":1}',
            '{"cmd":"list","index":"line"}',
        ]),
        ("`undo` puts each record back to its place among its equals ..", [
            '{"cmd":"undo"}',
            '{"cmd":"range","index":"by_balance","lower":{"ge":[50]},"upper":{"le":[50]}}',
        ], "equals"),
        (".. and to its place in the list.", [
            '{"cmd":"list","index":"line"}',
        ], "list"),
    ]),
]
"""Chapters, each a title and its steps: what a step shows, its commands, and a name by which the last reply is to be the same each time."""
END = "That was the tour. `make try` gives you a prompt, docs/GUIDE.md begins with a tutorial, and docs/PROOFS.md says what of this is proved."


def goes_on():
    """Waits for Enter, where somebody is there to press it. Answers whether the tour goes on."""
    if not (sys.stdin.isatty() and sys.stdout.isatty()):
        return True
    try:
        return input("[Enter goes on, q ends] ").strip().lower() != "q"
    except (EOFError, KeyboardInterrupt):
        print()
        return False


def shown(db, title, lines):
    """Prints a step, and answers the last reply."""
    print(title)
    reply = None
    for line in lines:
        print(f"> {line}", flush=True)
        reply = db.ask_line(line)
        print(reply)
    return reply


def tour(db):
    """Answers whether each reply that is to be the same as one before is."""
    seen, well = {}, True
    for n, (title, steps) in enumerate(CHAPTERS, 1):
        print(f"== {n}. {title}\n")
        for step in steps:
            reply = shown(db, *step[:2])
            for name in step[2:]:
                if seen.setdefault(name, reply) != reply:
                    print("That isn't what stood there before.")
                    well = False
            print(flush=True)
            if not goes_on():
                return well
    print(END)
    return well


def main(given=None):
    parser = argparse.ArgumentParser(description=__doc__, formatter_class=argparse.RawDescriptionHelpFormatter)
    parser.add_argument("--program")
    options = parser.parse_args(given)
    path = os.path.abspath(options.program) if options.program else program.program()
    with Database.start(path) as db:
        return 0 if tour(db) else 1


if __name__ == "__main__":
    sys.exit(main())
