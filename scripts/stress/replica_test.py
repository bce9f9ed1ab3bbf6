"""Failures of a ledger's members (clients/python/mi_replica) and of etcd's, and a check that nothing was lost.

    stress replicas [--short | --failures N] [--seed N] [--program FILE] [--seconds N] [--lease N] [--kinds KIND,..]
    stress replicas --figures [--program FILE]

Three members of etcd and three of a ledger run on this machine. While clients change its tables, in blocks too, members are killed,
stopped until another leads and woken, cut off from etcd, ended, and begun with an empty folder; and members of etcd are killed and stopped. After every few failures all clients end,
and then: each acknowledged line is in the log, once, in its client's order and with the reply that the reference gives there; a line that
was refused isn't; each member has applied the whole log, and its tables are the reference's. All the while the leader's look-ups are
compared with what was acknowledged before. --short is some seconds long; --figures measures instead. Where etcd isn't installed it says
so and ends with status 0. All that it starts ends with it. The last line is 'N failures, ..'."""
import argparse
import random
import shutil
import statistics
import time

import program
from stress import replica_figures
from stress.replica_kit import Etcds, Folder, Members, Recorder, Stuck, until
from stress.replica_load import REGISTER, Differs, Reader, Register, Talker, check_readers, check_tables, check_talker, first_done, look_for_errors, replayed

from mi_client import connect_leader

PER_RUN = 20
LONGEST_WAIT = 120
KINDS = {
    "kill leader": 5, "end leader": 1, "stop leader": 3, "kill member": 1, "stop member": 1, "empty member": 1, "kill etcd": 3, "stop etcd": 2,
    "kill both": 1, "stop both": 1, "cut leader": 3, "cut member": 1,
}
"""How often each happens, in proportion; those of members that are cut off from etcd in every fourth run, and then alone."""
CUTS = [it for it in KINDS if it.startswith("cut")]
SHORT = ["kill leader", "stop leader", "kill etcd", "cut leader"]
SETTINGS = ["--margin", "0.4", "--folder", "FOLDER", "--checkpoint", "8000"]


class Run:
    """One ledger with its clients, until it is checked."""

    def __init__(self, name, etcds, options, folder, seed, are_cut):
        self.etcds, self.random = etcds, random.Random(seed)
        self.members = Members(name, etcds.urls, options.program, folder, "--lease", str(options.lease), *SETTINGS, client=options.client, are_cut=are_cut)
        self.waits = []
        self.recorder = Recorder(name, etcds.urls)
        self.recorder.start()
        try:
            self.members.wait_for_leader()
            with connect_leader(self.members.ports, wait=LONGEST_WAIT) as db:
                register = Register(self.members.ports, db.insert(REGISTER))
        except BaseException:
            self.members.close()
            raise
        # (two of the clients wait through a stop of the leader, and so see what it tells them when it wakes)
        self.talkers = [register] + [Talker(n, self.members.ports, seed, 0.04, 2.0 if n < 3 else 20.0) for n in range(1, 5)]
        self.readers = [Reader(it, register) for it in self.members.ports]
        for it in (*self.talkers, *self.readers):
            it.start()
        time.sleep(0.5)

    # Failures

    def fail(self, kind):
        """One failure: until lines are acknowledged again, and all is there again."""
        what, _, whom = kind.partition(" ")
        number = self.members.wait_for_leader()
        if whom == "member":  # (one that follows)
            number = (number + self.random.choice((1, 2))) % 3
        chosen = [] if whom == "etcd" else [self.members.all[number]]
        if whom in ("etcd", "both"):
            chosen.append(self.random.choice(self.etcds.all))
        time.sleep(self.random.random() * 0.3)
        began = time.monotonic()
        for it in chosen:
            self.begin(what, it, number)
        self.waits.append((kind, self.acknowledged(time.monotonic()) - began))
        if what in ("stop", "cut"):
            time.sleep(self.random.random() * 3)
        for it in chosen:
            self.mend(what, it, number)
        for n in range(3):
            self.etcds.wait(n)
        self.acknowledged(time.monotonic())

    def begin(self, what, it, number):
        if what == "cut":
            self.members.ways[number].cut()
        else:
            {"kill": it.kill, "end": it.end, "stop": it.stop, "empty": it.kill}[what]()

    def mend(self, what, it, number):
        if what == "cut":
            self.members.ways[number].mend()
        elif what == "stop":
            it.go_on()
        else:
            if what == "empty":
                self.members.forget(it)
            it.start()

    def acknowledged(self, since):
        """The moment of the first change that was acknowledged behind this one."""
        return until("a line that is acknowledged", lambda: first_done(self.talkers, since), LONGEST_WAIT, 0.005)

    # The end

    def look_for_divergence(self):
        """No member's server has refused a line of the log."""
        for it in self.members.all:
            for line in it.said().splitlines():
                if "Diverged" in line:
                    raise Differs(f"{it.name}: {line}")

    def check(self):
        """Ends the clients, and checks. A line on what there was."""
        for it in (*self.talkers, *self.readers):
            it.end()
        for it in (*self.talkers, *self.readers):
            it.join(LONGEST_WAIT)
            if it.is_alive():
                raise Stuck(f"a client: it hadn't ended after {LONGEST_WAIT} s")
        look_for_errors((*self.talkers, *self.readers))
        self.members.wait_for_leader()
        entries = self.settled()
        reference, replies, places = replayed(entries)
        counts = [check_talker(it, replies, places) for it in self.talkers]
        self.members.wait_until_equal(len(entries))
        check_tables(self.members.ports, reference)
        self.look_for_divergence()
        current = check_readers(self.readers)
        acknowledged, unknown = map(sum, zip(*counts))
        checkpoints = [self.members.status(n)["checkpoint"] for n in range(3)]
        return (
            f"{len(self.waits)} failures, {len(entries)} entries of {len(replies)} lines, {acknowledged} acknowledged, {unknown} unknown, "
            f"{current} look-ups of leaders, checkpoints {checkpoints}, {self.members.with_bases()} with a base, log from {self.recorder.first}"
        )

    def settled(self):
        """The log, once what broken connections held is undone: nothing came for a second."""
        while True:
            count = len(self.recorder.entries)
            time.sleep(1.0)
            if count == len(self.recorder.entries):
                return self.recorder.end()

    def close(self):
        self.members.close()


def kinds_of(options, rng, turn, count):
    """Which failures come in a run."""
    if options.short:
        return SHORT
    named = options.kinds.split(",") if options.kinds else CUTS if turn % 4 == 3 else [it for it in KINDS if it not in CUTS]
    return rng.choices(named, [KINDS[it] for it in named], k=count)


def runs(options):
    """The failures, run by run. Those that happened, with the times until a line was acknowledged again."""
    waits, rng, turn = [], random.Random(options.seed), 0
    end = time.monotonic() + options.seconds
    with Folder() as folder:
        etcds = Etcds(folder)
        try:
            while len(waits) < options.failures and time.monotonic() < end:
                seed = rng.randrange(10**6)
                kinds = kinds_of(options, rng, turn, min(PER_RUN, options.failures - len(waits)))
                turn += 1
                run = Run(f"run{seed}", etcds, options, folder, seed, any(it in CUTS for it in kinds))
                try:
                    for kind in kinds:
                        if time.monotonic() < end:
                            run.fail(kind)
                    print(f"run of seed {seed}: {run.check()}", flush=True)
                    waits += run.waits
                except Stuck:
                    run.look_for_divergence()
                    raise
                finally:
                    run.close()
        finally:
            for it in etcds.all:
                it.kill()
    return waits


def told(waits):
    """How long no line was acknowledged, by kind of failure."""
    for kind in KINDS:
        times = [it for name, it in waits if name == kind]
        if times:
            print(f"  {kind:<12} {len(times):>4}   no line acknowledged for {statistics.median(times):5.2f} s, at worst {max(times):5.2f}")


def main():
    parser = argparse.ArgumentParser(description=__doc__, formatter_class=argparse.RawDescriptionHelpFormatter)
    parser.add_argument("--short", action="store_true")
    parser.add_argument("--failures", type=int, default=200)
    parser.add_argument("--seed", type=int, default=1)
    parser.add_argument("--seconds", type=float, default=3600, help="begins no failure behind so many seconds")
    parser.add_argument("--program", help="mi_service or mi_server")
    parser.add_argument("--lease", type=int, default=2, help="seconds; more where the machine is busy (%(default)s)")
    parser.add_argument("--kinds", help="these failures alone: " + ", ".join(KINDS))
    parser.add_argument("--client", help="a folder with another mi_replica, which the members run")
    parser.add_argument("--figures", action="store_true")
    options = parser.parse_args()
    unknown = set(options.kinds.split(",") if options.kinds else ()) - set(KINDS)
    if unknown:
        parser.error(f"no kind of failure: {', '.join(sorted(unknown))}")
    if not shutil.which("etcd"):
        print("skipped: replica_test.py needs etcd (apt-get install etcd-server)")
        return 0
    options.program = options.program or program.program()
    if options.short:
        options.failures = len(SHORT)
    began = time.monotonic()
    try:
        if options.figures:
            return replica_figures.told(options.program)
        waits = runs(options)
        if not waits:
            raise Stuck("no failure was begun, so nothing was checked")
    except (Differs, Stuck) as error:
        print(f"{type(error).__name__}: {error}")
        return 1
    told(waits)
    print(f"{len(waits)} failures, no acknowledged line lost or doubled, in {time.monotonic() - began:.0f} s")
    return 0
