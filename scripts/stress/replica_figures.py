"""How many lines a second three members on this machine take, by the most lines of an entry."""
import time

from stress.replica_kit import Etcds, Folder, Members

from mi_client import Ended, connect_leader

BATCHES = (1, 100, 1_000, 0)
SECONDS = 10.0
TRIES = 3
WINDOW = 8_000
"""So many lines are sent ahead at most, and 16 entries of them."""
LEASE = "10"
"""So long, since a machine that is busy with measuring may keep a leader waiting."""


def lines(mark):
    n = 0
    while True:
        n += 1
        yield f'{{"cmd":"insert","row":{{"owner":"o{mark}-{n}","balance":{n % 1000},"vip":false}}}}'


def rate(db, members, batch, mark):
    """Lines a second that were acknowledged, with many sent ahead, and entries a second."""
    first, began, count = members.status(members.leader())["applied"], time.monotonic(), 0
    for _ in db.ask_lines(lines(mark), min(WINDOW, 16 * batch) if batch else WINDOW):
        count += 1
        if time.monotonic() - began > SECONDS:
            break
    seconds = time.monotonic() - began
    return count / seconds, (members.status(members.leader())["applied"] - first) / seconds


def measured(members, batch):
    """The rates, once a term lasts as long as that takes; or None."""
    for n in range(TRIES):
        try:
            with connect_leader(members.ports, wait=60) as db:
                return rate(db, members, batch, f"{batch}-{n}")
        except Ended:
            pass
    return None


def told(path):
    with Folder() as folder:
        etcds = Etcds(folder)
        try:
            for batch in BATCHES:
                members = Members(f"batch{batch}", etcds.urls, path, folder, "--lease", LEASE, "--batch", str(batch))
                try:
                    found = measured(members, batch)
                finally:
                    members.close()
                what = f"{found[0]:8.0f} lines a second in {found[1]:6.1f} entries" if found else "no leader led for long enough"
                print(f"at most {batch or 'as many as fit'} lines an entry: {what}", flush=True)
        finally:
            for it in etcds.all:
                it.kill()
    return 0
