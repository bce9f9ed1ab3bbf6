"""top, metrics and plot: what they take from a server and how they show it."""
import contextlib
import re
import socket
import subprocess
import sys
import threading
import os
import unittest
import xml.etree.ElementTree
from typing import Iterator

import kit
from kit import ANN
from test_service import SERVICE

from mi_client import Database, Server
from mi_tools import process, sockets
from mi_tools.plot import bars_as_svg, bars_as_text, drawn, line_as_svg, line_as_text
from mi_tools.sampling import Bars, Line, along, distribution, edges_of, spread
from mi_tools.top import Sample, Usage, Watcher, amount, prometheus, screen

PLAYERS = """table = "player"
column = [{ name = "name", type = "text" }, { name = "score", type = "int" }, { name = "vip", type = "flag" }]
index = [
    { name = "by_score", kind = "ranked", key = ["score"] },
    { name = "best", kind = "ranked", key = ["-score"] },
    { name = "by_name", kind = "ranked", key = ["name"] },
    { name = "by_vip", kind = "ranked", key = ["-vip"] },
    { name = "in_order", kind = "ordered", key = ["-score"] },
    { name = "line", kind = "sequenced" },
]
"""


@contextlib.contextmanager
def asking(db: Database) -> Iterator[None]:
    """A block beside which a thread goes on as `top` does between two screens."""
    done = threading.Event()

    def go_on() -> None:
        while not done.is_set():
            Watcher(db, None).wait(0.02)

    thread = threading.Thread(target=go_on)
    thread.start()
    try:
        yield
    finally:
        done.set()
        thread.join(20)


class Top(unittest.TestCase):
    def test_a_sample(self) -> None:
        db = kit.start(self)
        db.insert(ANN)
        db.begin()
        it = Watcher(db, db.process).sample()
        self.assertEqual((it.sizes, it.revision, it.depth, it.holder), ([("accounts", 1)], 1, 1, "this connection"))
        self.assertGreater(it.usage.memory or 0, 100_000)
        self.assertGreater(it.usage.read or 0, 50)
        db.push()
        self.assertEqual(Watcher(db, None).sample()[4:], ("nobody", 4, Usage(), *[None] * 13))

    def test_another_holds_sessions(self) -> None:
        with Server(kit.program(), clients=2) as server:
            holder, watching = server.connect(20), server.connect(20)
            self.assertEqual(process.listener(server.port), server.process.pid)
            holder.begin()
            with asking(holder):
                self.assertEqual(Watcher(watching, None).sample().holder, "another connection")
                watching.close()
            holder.close()

    def test_waiting_holds_nobody_up(self) -> None:
        with Server(kit.program(), clients=2) as server:
            working, watching = server.connect(20), server.connect(20)
            with asking(watching):
                for n in range(20):
                    working.insert({"owner": str(n), "balance": n, "vip": False})
                self.assertEqual(working.size(), 20)
                working.close()
            watching.close()

    def test_bytes_of_connections(self) -> None:
        """Those of other processes are counted, to the byte, of a connection that was there before and of one that comes later."""
        if sockets.connections() is None:
            self.skipTest("the system tells no bytes of connections")
        code = "import socket, sys\ns = socket.create_connection(('127.0.0.1', int(sys.argv[1])))\ns.sendall(b'x' * 70_000)\ns.recv(1)\ninput()"
        with socket.create_server(("127.0.0.1", 0)) as listener, contextlib.ExitStack() as ends:
            port = listener.getsockname()[1]
            traffic = None
            for _ in range(2):
                ran = ends.enter_context(subprocess.Popen([sys.executable, "-c", code, str(port)], stdin=subprocess.PIPE))
                ends.callback(ran.kill)
                there = ends.enter_context(listener.accept()[0])
                self.assertEqual(len(there.recv(70_000, socket.MSG_WAITALL)), 70_000)
                traffic = traffic or sockets.Traffic(port)
                there.sendall(b"yes")
            own = ends.enter_context(socket.create_connection(("127.0.0.1", port)))
            own.sendall(b"of the tool itself")
            self.assertEqual(ends.enter_context(listener.accept()[0]).recv(18, socket.MSG_WAITALL), b"of the tool itself")
            self.assertEqual(traffic.moved(), (70_000, 6))
            self.assertEqual(traffic.moved(), (70_000, 6))

    def test_a_server_that_is_asked_by_another(self) -> None:
        if sockets.connections() is None:
            self.skipTest("the system tells no bytes of connections")
        for tool, wanted in [("top", r"read      [1-9][0-9.]* k?B/s   written [1-9][0-9.]* k?B/s"),
                             ("metrics", r"read_bytes_total [1-9][0-9]*\n(?:#.*\n)*weltiyo_written_bytes_total [1-9]")]:
            with Server(kit.program(), clients=2) as server:
                working, found = server.connect(60), []
                words = [tool, "--connect", str(server.port), "--every", "0.2", "--count", "2", "--timeout", "60"]
                looking = threading.Thread(target=lambda: found.append(kit.ran(*words)))
                looking.start()
                while looking.is_alive():
                    working.insert({**ANN, "owner": str(working.size())})
                looking.join()
                working.close()
            self.assertEqual((found[0].returncode, found[0].stderr), (0, ""))
            self.assertEqual(len(re.findall(wanted, found[0].stdout)), 2, found[0].stdout)
        service = Server(service=SERVICE)
        self.addCleanup(service.close)
        once = kit.ran("metrics", "--connect", str(service.port)).stdout
        self.assertNotIn("bytes_total", once)
        self.assertTrue(once.endswith("so --every SECONDS has them.\n"), once)

    def test_what_is_shown(self) -> None:
        before = Sample(0.0, [("a", 10), ("b", 0)], 0, 0, "nobody", 100, Usage(1_000_000, 0, 0, 1.0))
        now = Sample(2.0, [("a", 2010), ("b", 0)], 3, 2, "nobody", 4100, Usage(2_010_000, 2_000_000, 500, 2.0))
        self.assertEqual(screen(now, before).splitlines(), [
            "memory    2.0 MB (1.0 kB a row)",
            "read      1.0 MB/s   written 250 B/s   processor 50%",
            "turns     2.0 k/s",
            "sessions  2 open, revision 3; held by nobody",
            "",
            "table  rows  rows/s",
            "-----  ----  ------",
            "a      2010    1000",
            "b         0       0",
        ])
        asks = screen(now._replace(lines={2: 110, 5: 40}, uptime=3723), before._replace(lines={2: 100, 4: 9})).splitlines()
        told = screen(now._replace(journal=119, synced=16, memories={"a": 70_000, "b": 0}), before).splitlines()
        self.assertEqual([told[4], *told[-2:]], ["journal   119 B, 16 B synced", "a      2010    1000  70.0 kB", "b         0       0  0 B"])
        self.assertEqual([it for it in asks if it[:5] in ("lines", "up   ")], ["lines     25 /s, most by connection 5: 20 /s", "up        1:02:03"])
        self.assertIn("memory    not told\n", screen(now._replace(usage=Usage()), before))
        self.assertEqual([amount(it) for it in [0, 999, 1000, 2.5e9, 3e12]], ["0 B", "999 B", "1.0 kB", "2.5 GB", "3000.0 GB"])
        text = prometheus(now)
        self.assertIn('# TYPE weltiyo_rows gauge\nweltiyo_rows{table="a"} 2010\nweltiyo_rows{table="b"} 0\n', text)
        for line in text.splitlines():
            self.assertRegex(line, r'^(# (HELP|TYPE) weltiyo_[a-z_]+ .+|weltiyo_[a-z_]+(\{table="\w+"\})? [0-9.]+)$')

    def test_programs(self) -> None:
        ran = kit.ran("top", "--force", "--program", kit.program(), "--count", "2", "--every", "0.05")
        self.assertEqual((ran.returncode, ran.stderr, ran.stdout.count("sessions  0 open")), (0, "", 2))
        ran = kit.ran("metrics", "--force", "--program", kit.program())
        self.assertEqual((ran.returncode, ran.stderr, ran.stdout.count("weltiyo_rows{")), (0, "", 1))
        path = f"{kit.folder(self)}/weltiyo.prom"
        self.assertEqual(kit.ran("metrics", "--force", "--program", kit.program(), "--every", "0.01", "--count", "2", "--file", path).returncode, 0)
        with open(path, encoding="utf-8") as file:
            self.assertTrue(file.read().startswith("# HELP weltiyo_rows"))
        self.assertEqual(kit.ran("top", "--connect", "1").returncode, 1)

    def test_a_link_to_the_file_of_metrics(self) -> None:
        """It stays a link, to a file or to what is none."""
        for far in (f"{kit.folder(self)}/far.prom", "/dev/stdout"):
            link = f"{kit.folder(self)}/weltiyo.prom"
            os.symlink(far, link)
            ran = kit.ran("metrics", "--force", "--program", kit.program(), "--file", link)
            self.assertEqual((ran.returncode, ran.stderr, os.readlink(link)), (0, "", far))
            said = ran.stdout
            if not said:
                with open(far, encoding="utf-8") as file:
                    said = file.read()
            self.assertTrue(said.startswith("# HELP weltiyo_rows"))
            self.assertEqual(os.listdir(os.path.dirname(link)), ["weltiyo.prom"])


class Plots(unittest.TestCase):
    def setUp(self) -> None:
        self.db = kit.start(self, PLAYERS)

    def fill(self, scores: "list[int]") -> Database:
        with self.db.pipeline() as ahead:
            for n, it in enumerate(scores):
                ahead.insert({"name": f"n{n:03}", "score": it, "vip": n % 3 == 0})
        return self.db

    def test_distributions(self) -> None:
        """Counted by ranks, from both sides, and by a walk over all rows: the three agree with counting by hand."""
        scores = [n * n for n in range(60)]
        db = self.fill(scores)
        edges = edges_of(0, 59 * 59, 7)
        want = [sum(low <= it < high for it in scores) for low, high in zip(edges, edges[1:])]
        for index in ["by_score", "best", "in_order"]:
            found = distribution(db, None, index, 7)
            self.assertEqual([count for _, count in found.bars], want, index)
            self.assertEqual(found.bars[0][0], "0 to 497")
        self.assertEqual(distribution(db, None, "by_vip", 7).bars, [("true", 20), ("false", 40)])
        names = distribution(db, None, "by_name", 4).bars
        self.assertEqual(([name for name, _ in names], sum(count for _, count in names)), (["n000 ..", "n019 ..", "n039 ..", "n059 .."], 60))

    def test_few_values(self) -> None:
        db = self.fill([3, 1, 3, 2, 3, 1])
        self.assertEqual(distribution(db, None, "by_score", 5).bars, [("1", 2), ("2", 1), ("3", 3)])
        for index in ["best", "in_order"]:
            self.assertEqual(distribution(db, None, index, 5).bars, [("3", 3), ("2", 1), ("1", 2)])

    def test_none(self) -> None:
        self.assertEqual(distribution(self.db, None, "best", 5).bars, [])
        self.assertEqual(along(self.db, None, "best", "score", 5).points, [])
        for it in [Bars("t", []), Line("t", [])]:
            self.assertEqual(drawn(it, False, 80), "t\nno records")
            xml.etree.ElementTree.fromstring(drawn(it, True, 80))

    def test_along(self) -> None:
        db = self.fill([n * n for n in range(60)])
        for index, want in [("by_score", [0, 19**2, 39**2, 59**2]), ("best", [59**2, 40**2, 20**2, 0]), ("in_order", [59**2, 40**2, 20**2, 0])]:
            self.assertEqual(along(db, None, index, "score", 4).points, list(zip([0, 19, 39, 59], want)))
        self.assertEqual(len(along(db, None, "best", "id", 1000).points), 60)
        self.assertEqual((spread(3, 5), spread(0, 5), spread(9, 1)), ([0, 1, 2], [], [0]))
        refused = [("line", "score", "sequenced"), ("none", "score", "no index none"), ("best", "name", "no column of numbers")]
        for index, column, words in refused:
            with self.assertRaisesRegex(ValueError, words):
                along(db, None, index, column, 4)

    def test_axes_and_what_was_looked_at(self) -> None:
        db = self.fill([n * n for n in range(60)])
        for index, column, want in [
            ("by_score", "score", "all 60 records, counted by ranks"), ("in_order", "score", "all 60 records, walked"),
            ("by_vip", "vip", "all 60 records, counted by ranks"),
            ("by_name", "name", "4 of 60 records, evenly spread; a bar goes from one to the next"),
        ]:
            bars = distribution(db, None, index, 4)
            self.assertEqual((bars.key, bars.sampled), (column, want))
            self.assertRegex(bars_as_text(bars, 60), f"\n{want}\n *{column} +records\n")
            texts = [it.text for it in xml.etree.ElementTree.fromstring(bars_as_svg(bars)).iter() if it.text]
            self.assertEqual([it in texts for it in (column, "records", want)], [True] * 3)
        line = along(db, None, "best", "score", 7)
        self.assertEqual((line.across, line.up, line.sampled), ("place in best", "score", "7 of 60 records, evenly spread"))
        text = line_as_text(line, 60).splitlines()
        self.assertEqual((text[1], text[2].strip(), text[-1].split()), (line.sampled, "score", ["0", "place", "in", "best", "59"]))
        texts = [it.text for it in xml.etree.ElementTree.fromstring(line_as_svg(line)).iter() if it.text]
        self.assertEqual([it in texts for it in (line.across, line.up, line.sampled)], [True] * 3)

    def test_drawings(self) -> None:
        bars, line = Bars("a <b>", [("x", 1), ("yy", 1000)]), Line("c", [(0, 0.0), (5, 5.0), (10, 10.0)])
        self.assertEqual(bars_as_text(bars, 30), "a <b>\n x     1\nyy 1,000 " + "#" * 20)
        text = line_as_text(line, 24).splitlines()
        self.assertEqual((len(text), text[1], text[16]), (19, " 10|" + " " * 19 + "*", "  0|*"))
        for made in [bars_as_svg(bars), line_as_svg(line)]:
            self.assertTrue(xml.etree.ElementTree.fromstring(made).tag.endswith("svg"))
        self.assertIn("a &lt;b&gt;", bars_as_svg(bars))
        self.assertEqual(len(re.findall(r"[\d.]+,[\d.]+", re.search(r'points="([^"]*)"', line_as_svg(line))[1])), 3)

    def test_program(self) -> None:
        path = kit.written(self, '{"row":{"owner":"a","balance":5,"vip":true}}\n{"row":{"owner":"b","balance":5,"vip":false}}\n', "d.jsonl")
        ran = kit.ran("plot", "--load", path, "by_balance")
        self.assertTrue(ran.stdout.startswith(
            "records of accounts by balance (by_balance)\nall 2 records, counted by ranks\nbalance records\n      5       2 ##"))
        picture = f"{kit.folder(self)}/out.svg"
        self.assertEqual(kit.ran("plot", "--load", path, "--svg", picture, "--column", "balance", "by_balance").stdout, "")
        xml.etree.ElementTree.parse(picture)
        self.assertEqual(kit.ran("plot", "--force", "--program", kit.program(), "by_owner").returncode, 1)


if __name__ == "__main__":
    unittest.main()
