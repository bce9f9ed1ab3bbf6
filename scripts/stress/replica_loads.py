"""How large a member's checkpoint is, and how long it takes to write and to load: with all lines, and with a base. No etcd is asked.

    stress replica-loads [--program FILE] [--rows N] [--changes N]

Rows are inserted, and then modified again and again, each by an entry of its own. A load is from the start of a server to the reply to the last line.
Of `mi_server`, which reads no base, there is the one with all lines alone."""
import argparse
import asyncio
import os
import sys
import tempfile
import time

import program
from stress import service

sys.path.insert(0, f"{program.TOP}/clients/python")
from mi_replica.checkpoint import Folder, batches, header  # noqa: E402
from mi_replica.following import replay  # noqa: E402
from mi_replica.front import Front  # noqa: E402
from mi_replica.own import own_of  # noqa: E402


def entries(rows, changes):
    """The lines of a log, each with the number of its entry."""
    for n in range(rows):
        yield n + 1, b'{"cmd":"insert","row":{"owner":"owner %d","balance":%d,"vip":false}}\n' % (n, n % 100)
    for n in range(changes):
        yield rows + n + 1, b'{"cmd":"modify","id":%d,"add":{"balance":1}}\n' % (n * 7_919 % rows)


async def loaded(path, checkpoint):
    """How long a server takes that loads a checkpoint, and what it answers to a look at its tables."""
    own, began = own_of(path, None), time.monotonic()
    try:
        await own.start(checkpoint)
        for lines in batches(checkpoint):
            await replay(own, lines, checkpoint)
        took = time.monotonic() - began
        return took, await own.ask([b'{"cmd":"list","index":"line","limit":1000}\n', b'{"cmd":"size"}\n'])
    finally:
        await own.close()


def measured(path, options, shorter):
    """A checkpoint's bytes, the seconds of a write and of a load, and what its server shows."""
    with tempfile.TemporaryDirectory() as home:
        first, began = asyncio.run(own_of(path, None).header()) or header(0, "00"), time.monotonic()
        made = Folder(home, "led", "0a", shorter).write(Front(1, "0" * 16), first, entries(options.rows, options.changes))
        wrote = time.monotonic() - began
        took, shown = asyncio.run(loaded(path, made.path))
        return os.path.getsize(made.path), wrote, took, shown


def main():
    parser = argparse.ArgumentParser(description=__doc__, formatter_class=argparse.RawDescriptionHelpFormatter)
    parser.add_argument("--program", metavar="FILE")
    parser.add_argument("--rows", type=int, default=1_000)
    parser.add_argument("--changes", type=int, default=200_000)
    options = parser.parse_args()
    path = service.needed(options.program)
    rebase, shown = own_of(path, None).rebase(print), []
    for what, shorter in [("all lines", lambda checkpoint: None)] + [("a base", rebase)] * (rebase is not None):
        size, wrote, took, found = measured(path, options, shorter)
        shown.append(found)
        print(f"{what:<9} {size:>12,} bytes, written in {wrote:.2f} s, loaded in {took:.2f} s", flush=True)
    if shown[0] != shown[-1]:
        print("Differs: the two show other tables")
        return 1
    return 0
