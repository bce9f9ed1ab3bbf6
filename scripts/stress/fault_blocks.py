"""Blocks of lines and calls whose memory is promised, with requests for memory refused: what a `reserve` covers, the undo line, and
the cut of a connection. `faults.py` runs them.

By lines it can be seen which lines were answered. What of a line is refused is told by the library in two ways: all that is asked for
while pieces of input are read and answered, or only that which is asked for while a function of some name is at work. The second
needs a program with frames on its stack, which the one compiled without proofs is."""
import json
import os
import socket
import struct
import subprocess

import program
from stress.fault_runs import MEMORY, UNDO, Counts, Plan, Ran, Row, connected, insert, judge, line, receive_all
from stress.fuzz import ACCOUNTS
from reference import Reference

RESERVED = [insert("a", 1, False), insert("b", 2, False), line("reserve", changes=2, sessions=1)]
REPLACE = line("replace", id=1, row={"owner": "b", "balance": 3, "vip": True})
BY_KEY = line("erase_key", index="by_owner", key=["b"])
RELOCATE = line("relocate", index="line", id=0)
ERASE = line("erase", id=0)
START, LAST = line("start"), UNDO + b"\n"
WITHOUT_READING = {START, ERASE, LAST}
"""Lines that are read without memory, so where the room is there they are never refused for it."""
# What stands before, and the block: the session and the changes that the reserve is for; and changes with no session open.
BLOCKS = [
    ("a replacement and an erase, undone", RESERVED, [START, REPLACE, ERASE, LAST]),
    ("a relocation and an erase by key, undone", RESERVED, [START, RELOCATE, BY_KEY, LAST]),
    ("changes with no session open", RESERVED[:2], [RELOCATE, REPLACE, BY_KEY, ERASE]),
]
DATABASE = "mi_database::sessions::LinkedSessions::"
"""The calls of the database that is served."""
CUT = "mi_hub::hub::Hub::cut"
ABOUT = "with the memory of reading, and none for the database's calls"


def planned(name, front, block, way):
    """A row of a front and a block, in which requests are refused until the block ends; and the piece that it begins with."""
    plan = Plan(Row(name, steps=[(1, it) for it in front + block]), way)
    plan.until = len(front) + len(block)
    return plan, len(front)


def tell(total, name, differs):
    total.differ += bool(differs)
    print(f"{name}{'; DIFFERS: ' + differs if differs else ''}", flush=True)


def answered(ran, front, block):
    return list(zip(block, ran.outs[1].splitlines(keepends=True)[len(front):]))


# Behind a reserve, by lines


def block_by_lines(runner, name, front, block):
    """Each request behind the front refused in turn, and then all: the lines that are read without memory are never answered `memory`, and
    the others are as if they weren't asked where they are."""
    total = Counts()
    for way in ("one", "rest"):
        plan, first = planned(name, front, block, way)
        request, refused = 0, 1
        while refused and not total.differ:
            request += 1
            ran = runner.run(plan, request, first)
            differs, memory = judge(plan, ran)
            replies, refused = answered(ran, front, block), ran.refused
            differs = differs or next((f"{it!r} is answered memory" for it, reply in replies if it in WITHOUT_READING and reply == MEMORY), None)
            total.runs, total.refused, total.memory = total.runs + 1, total.refused + refused, total.memory + memory
            if request == 1:
                said = ", ".join(f"{json.loads(it)['cmd']} {'memory' if reply == MEMORY else 'accepted'}" for it, reply in replies)
            if differs:
                tell(total, f"{name}, {way}, request {request}", differs)
    print(f"{name}: {total.runs} runs, {total.refused} requests refused; with all refused: {said}", flush=True)
    return total


def block_within(runner, name, front, block):
    """Every request refused that is made inside a call of the database from the front on: there is none, and each line is accepted."""
    plan, first = planned(name, front, block, "rest")
    ran = runner.run(plan, 1, first, within=DATABASE)
    differs, memory = judge(plan, ran)
    if not differs and (memory or ran.refused or any(b'"ok":true' not in reply for _, reply in answered(ran, front, block)[:len(block)])):
        differs = f"{ran.refused} requests inside the database's calls, {memory} lines answered memory"
    total = Counts()
    total.runs = 1
    tell(total, f"{name}, {ABOUT}: every line accepted, {ran.requests} requests", differs)
    return total


def undo_line(runner):
    """With one session open, each request that is made by feeding the undo line is refused, by one connection and beside another: the reply
    is the revision, and there is no request."""
    total = Counts()
    for steps in ([(1, insert("a")), (1, START), (1, insert("b"))], [(1, START), (2, b"\n"), (1, insert("b")), (2, line("size"))]):
        plan = Plan(Row("the undo line", steps=[*steps, (1, LAST)]), "rest")
        at = next(n for n, it in enumerate(plan.pieces) if it == (1, LAST))
        plan.until = at + 1
        ran = runner.run(plan, 1, first=at)
        total.runs += 1
        connections = len({conn for conn, _ in steps})
        differs = judge(plan, ran)[0] or (f"{ran.requests} requests" if ran.requests else None)
        tell(total, f"the undo line of a session, of {connections} connection{'s' * (connections > 1)}: the revision, {ran.requests} requests", differs)
    return total


# A cut


def cut_of(runner, within, request):
    """A connection that holds a session is reset. Answers the run of the other, and what it should have been answered."""
    port = program.free_port()
    words = [runner.path, "--listen", str(port), "--clients", "2"]
    looks = [line("size"), line("revision"), line("range", index="by_balance"), line("list", index="line"), insert("c")]
    reference = Reference([ACCOUNTS])
    with subprocess.Popen(words, env=runner.env("rest", request, within=within), stdin=subprocess.DEVNULL, stderr=subprocess.PIPE) as server:
        first, second = connected(server, port), connected(server, port)
        for conn, stream, asked in [(1, first, insert("a")), (2, second, b"\n"), (1, first, START), (2, second, b"\n"), (1, first, insert("b"))]:
            stream.sendall(asked)
            if reference.feed(conn, asked):
                stream.recv(4096)
        # (closed with data unread or with no linger, a connection is reset: the read of the server fails)
        first.setsockopt(socket.SOL_SOCKET, socket.SO_LINGER, struct.pack("ii", 1, 0))
        first.close()
        reference.rests.pop(1, None)
        reference.close(1)
        want = b"".join(reference.feed(2, it) for it in looks)
        second.sendall(b"\n" + b"".join(looks))
        second.shutdown(socket.SHUT_WR)
        got = receive_all(second)
        _, errors = server.communicate(timeout=60)
    return runner.read_log({2: got}, server.returncode, errors), want


def cut(runner):
    total = Counts()
    ran, want = cut_of(runner, CUT, 1)
    total.runs += 1
    differs = None if ran.outs[2] == want else f"wanted {want!r}, got {ran.outs[2]!r}"
    if (ran.status, ran.errors) != (4, b"fault: read\n"):
        differs = differs or f"it ended with {ran.status}: {ran.errors!r}"
    differs = differs or (f"{ran.requests} requests" if ran.requests else None)
    tell(total, f"a connection that is cut while it holds a session: all taken back, {ran.requests} requests inside `cut`", differs)
    return total


# By calls

CALLS = "test_calls"
CALLS_TEST = "tests::sessions::a_reserved_block_needs_no_memory"
MARK = 1_234_567
"""How many bytes that test asks for where its block begins; requests are refused behind it."""


def by_calls(runner, folder):
    """A reserved block by calls of the database, without lines: the test passes whatever is refused behind its mark, and nothing is, since
    the block asks for no memory."""
    path, total, asked = program.tests_of(CALLS), Counts(), []
    for request, rest in [(1, 0), (2, 0), (3, 0), (1, 1)]:
        env = {**os.environ, "LD_PRELOAD": runner.library, "REFUSE_LOG": f"{folder}/calls", "REFUSE_MARK": str(MARK), "REFUSE_REQUEST": str(request)}
        ran = subprocess.run([path, CALLS_TEST], env={**env, "REFUSE_ALL": str(rest)}, stdin=subprocess.DEVNULL, capture_output=True)
        with open(f"{folder}/calls", encoding="ascii") as file:
            said = file.read()
        counts = Ran({}, ran.returncode, b"", said)
        asked.append(counts.requests)
        total.runs += 1
        if ran.returncode or "marked" not in said:
            tell(total, f"a reserved block by calls, request {request}", f"it ended with {ran.returncode}: {said!r}")
    name = f"a reserved block by calls, by {os.path.relpath(path, program.TOP)}: {max(asked)} requests behind the reserve"
    tell(total, name, f"{asked}" if max(asked) else None)
    return total


# All


def sees_functions(runner):
    """Whether requests can be told by the functions at work: the inserts of a front are seen to ask for memory inside the database. Of a
    proved program they can't, since functions are put into one another there, and not all have frames."""
    plan, _ = planned("inserts", RESERVED, [START], "one")
    ran = runner.run(plan, 0, within=DATABASE)
    return ran.has_own_allocator and ran.functions > 0 and ran.requests > 0


def all_blocks(runner, unproved, folder):
    """All of them; `unproved` runs the program compiled without proofs. Which lines are answered `memory` where their reading is refused
    is told and not judged: `reserve` covers the database, and not the reading of a line."""
    total = Counts()
    for name, front, block in BLOCKS:
        total.add(block_by_lines(runner, name, front, block))
    total.add(undo_line(runner))
    if not sees_functions(unproved):
        tell(total, "functions at work", "no request was seen inside a call of the database, so none can be told to be outside")
        return total
    for name, front, block in BLOCKS:
        total.add(block_within(unproved, name, front, block))
    total.add(cut(unproved))
    total.add(by_calls(runner, folder))
    return total
