"""A service that the client starts: connections that come and go, and a journal that is there at the next start. The program is the one that
MI_SERVICE names, else the built one, else the stand-in of the scripts' tests."""
import asyncio
import json
import os
import subprocess
import sys
import time
import unittest

import kit
from kit import ANN, BOB, TOP

from mi_client import Ended, Refused, Server, service_lines
from mi_client.aio import AsyncDatabase
from mi_client.schema import Schema

BUILT = f"{TOP}/crates/mi_service/out/mi_service"
STAND_IN = f"{TOP}/scripts/tests/stand_in.py"
SERVICE = os.environ.get("MI_SERVICE") or (BUILT if os.path.exists(BUILT) else STAND_IN)


class Services(unittest.TestCase):
    def setUp(self):
        self.journal = f"{kit.folder(self)}/journal"

    def started(self, **how):
        server = Server(service=SERVICE, journal=self.journal, **how)
        self.addCleanup(server.close)
        return server

    @unittest.skipIf(SERVICE == STAND_IN, "the service isn't built: its stand-in has taken its place")
    def test_it_is_the_service(self):
        self.assertTrue(os.path.isfile(SERVICE))

    def test_connections_come_and_go(self):
        with Server(service=SERVICE) as server:
            silent = server.connect(10)
            for n in range(5):
                with server.connect(10) as db:
                    self.assertEqual(db.insert({**ANN, "owner": str(n)}), n)
            with server.connect(10) as db:
                self.assertEqual(db.size(), 5)
            self.assertEqual(silent.size(), 5)
            silent.close()

    def test_the_journal_is_kept(self):
        for sync in (None, "always", "never"):
            with self.started(sync=sync) as server, server.connect(10) as db:
                count = db.size()
                db.insert({**ANN, "owner": f"{sync}"})
                with db.pipeline() as ahead:
                    for n in range(20):
                        ahead.modify(count, add={"balance": 1})
            with self.started() as server, server.connect(10) as db:
                self.assertEqual((db.size(), db.get(count)["balance"]), (count + 1, ANN["balance"] + 20))

    def test_what_is_held_is_undone(self):
        with self.started() as server:
            db = server.connect(10)
            db.insert(ANN)
            db.begin()
            db.erase(0)
            with server.connect(10) as other:
                with self.assertRaises(Refused):
                    other.insert(BOB)
            server.process.kill()
            server.process.wait()
            with self.assertRaises(Ended):
                db.size()
        with self.started() as server, server.connect(10) as db:
            self.assertEqual((db.get(0)["owner"], db.revision()), ("ann", (0, 0, 0)))

    def test_a_block_ends_what_its_connection_holds(self):
        """What it committed isn't its own any more, and what another connection began or pushed meanwhile never was."""
        with self.started() as server, server.connect(10) as db, server.connect(10) as other:
            with db.session() as number:
                db.insert(ANN)
                db.commit(number)
                other.begin()
                other.insert(BOB)
            self.assertEqual((other.revision(), other.undo()), ((2, 1, 1), 1))
            with self.assertRaises(KeyError):
                with db.session() as number:
                    db.commit(number)
                    other.begin()
                    other.insert(BOB)
                    other.push()
                    raise KeyError
            self.assertEqual((db.size(), db.revision(), db.undo_all()), (2, (3, 1, 0), 1))
            with db.session():
                db.push()
                db.begin()
            self.assertEqual((db.revision(), db.undo_all()), ((3, 1, 0), 1))

            async def work():
                async with await AsyncDatabase.connect(server.port) as beside:
                    async with beside.session() as number:
                        await beside.commit(number)
                        other.begin()
                        other.insert(BOB)

            asyncio.run(asyncio.wait_for(work(), 30))
            self.assertEqual((other.revision().held, other.size()), (1, 2))

    def test_lines_of_its_own(self):
        """They are answered in their turn, whoever holds sessions, and change nothing."""
        with self.started() as server, server.connect(10) as db, server.connect(10) as other:
            db.insert(ANN)
            other.begin()
            told = service_lines.status(db)
            self.assertEqual([it["number"] for it in told["connections"] if it["holds"]], [told["holder"]])
            accounts = {"memory": told["tables"][0]["memory"], "name": "accounts", "size": 1}
            self.assertEqual((len(told["connections"]), told["depth"], told["tables"]), (2, 1, [accounts]))
            self.assertEqual({it["unsent"] for it in told["connections"]}, {0})
            self.assertEqual([it["since"] for it in told["connections"] if it["holds"]], [it["lines"] for it in told["connections"] if it["holds"]])
            self.assertEqual([it["since"] for it in told["connections"] if not it["holds"]], [None])
            other.size()
            self.assertEqual([it["lines"] - it["since"] for it in service_lines.status(db)["connections"] if it["holds"]], [1])
            lines = ['{"cmd":"size"}', service_lines.STATUS_LINE, '{"cmd":"start"}', service_lines.SCHEMA_LINE, '{"service":"fly"}', '{"cmd":"revision"}']
            replies = list(map(json.loads, db.ask_lines(lines)))
            self.assertEqual([it.get("size", it.get("error", it["ok"])) for it in replies], [1, True, "busy", True, "form", True])
            self.assertEqual(replies[1]["tables"], told["tables"])
            self.assertEqual(other.undo(), 0)
            self.assertIsNone(service_lines.status(db)["holder"])
        with open(self.journal, "rb") as file:
            self.assertNotIn(b"service", file.read())

    @unittest.skipIf(SERVICE == STAND_IN, "the service isn't built: its stand-in has taken its place")
    def test_a_journal_that_is_told(self):
        with self.started() as server, server.connect(10) as db:
            db.insert(ANN)
            told = service_lines.status(db)["journal"]
            with open(self.journal, "rb") as file:
                text = file.read()
            end = text.rindex(b"\n") + 1
            self.assertEqual(told, {"bytes": end, "full": False, "room": len(text) - end, "segment": 1, "synced": end})
            self.assertGreater(told["room"], 1_000_000)
            figures = kit.ran("metrics", "--connect", str(server.port)).stdout
            self.assertIn(f"\nweltiyo_journal_bytes {told['bytes']}\n", figures)
            self.assertIn(f"\nweltiyo_journal_synced_bytes {told['synced']}\n", figures)
            self.assertRegex(figures, "\nweltiyo_table_memory_bytes{table=\"accounts\"} [1-9][0-9]+\n")
            self.assertIn(f"\nweltiyo_journal_room_bytes {told['room']}\n", figures)
            self.assertIn("\nweltiyo_journal_segment 1\n", figures)
            self.assertIn("\nweltiyo_journal_disk_free_bytes ", figures)
            self.assertIn(" free on its disk\n", kit.ran("status", "--connect", str(server.port)).stdout)
        with self.started(sync="never") as server, server.connect(10) as db:
            again = service_lines.status(db)["journal"]
            self.assertEqual(again, {**told, "room": os.path.getsize(self.journal) - told["bytes"], "synced": None})
            self.assertNotIn("journal_synced_bytes", kit.ran("metrics", "--connect", str(server.port)).stdout)
        with Server(service=SERVICE) as server, server.connect(10) as db:
            self.assertIsNone(service_lines.status(db)["journal"])

    @unittest.skipIf(SERVICE == STAND_IN, "the service isn't built: its stand-in has taken its place")
    def test_a_connection_that_is_ended(self):
        """Its sessions are undone, and who asked is served on."""
        with self.started() as server, server.connect(10) as db, server.connect(10) as other:
            other.begin()
            other.insert(ANN)
            holder = service_lines.status(db)["holder"]
            self.assertEqual(list(db.ask_lines([f'{{"service":"end","connection":{holder}}}'])), ['{"ok":true}'])
            while service_lines.status(db)["holder"] is not None:
                time.sleep(0.01)
            self.assertEqual((db.revision().depth, db.size()), (0, 0))
            with self.assertRaises(Ended):
                other.size()
            lines = ['{"service":"end","connection":-1}', f'{{"service":"end","connection":{holder}}}', '{"service":"end"}']
            form = '{"error":"form","ok":false}'
            self.assertEqual(list(db.ask_lines(lines)), [form, '{"ok":true}', form])

    def test_the_schema_is_told(self):
        for path in (None, f"{TOP}/examples/shop.toml"):
            with Server(service=SERVICE, schema=path) as server, server.connect(10) as db:
                text = service_lines.schema_text(db)
                self.assertEqual(Schema.of_text(text), Schema.built_in() if path is None else Schema.read(path))
                if path:
                    with open(path, encoding="utf-8") as file:
                        self.assertEqual(text, file.read())

    def test_a_status_that_is_shown(self):
        with Server(service=SERVICE) as server, server.connect(10) as db:
            db.begin()
            shown = kit.ran("status", "--connect", str(server.port))
            self.assertEqual((shown.returncode, shown.stderr), (0, ""))
            self.assertRegex(shown.stdout, r"^mi_service [0-9.]+, up 0:0[0-9:]+: 1 sessions open, held by connection [0-9]+\n")
            told = json.loads(kit.ran("status", "--json", "--connect", str(server.port)).stdout)
            self.assertEqual((told["depth"], len(told["connections"])), (1, 2))
            text = kit.ran("metrics", "--connect", str(server.port)).stdout
            self.assertIn("\nweltiyo_connections 2\n", text)
            self.assertRegex(text, "\nweltiyo_uptime_seconds [0-9]+\n")

    def test_lines_that_are_counted(self):
        """Those of the tables, refused or not, and those of the service, each connection's own."""
        with Server(service=SERVICE) as server, server.connect(10) as db, server.connect(10) as other:
            before = {it["number"]: it["lines"] for it in service_lines.status(db)["connections"]}
            list(other.ask_lines(['{"cmd":"size"}', '{"cmd":"fly"}', service_lines.STATUS_LINE]))
            told = service_lines.status(db)["connections"]
            self.assertEqual(sorted(it["lines"] - before[it["number"]] for it in told), [1, 3])
        with Server(kit.program(), clients=1) as server:
            refused = kit.ran("status", "--connect", str(server.port))
            self.assertEqual((refused.returncode, refused.stderr), (1, "weltiyo: this server tells no status; mi_service does\n"))

    def test_a_schema(self):
        path = kit.written(self, 'table = "t"\ncolumn = [{ name = "n", type = "int" }]\n')
        with self.started(schema=path) as server, server.connect(10) as db:
            self.assertEqual(db.insert({"n": 1}), 0)
        with self.assertRaisesRegex(Ended, "status 3: journal: schema"):
            self.started()

    def test_a_damaged_journal(self):
        self.started().close()
        with open(self.journal, "ab") as file:
            file.write(b"{\n")
        with self.assertRaisesRegex(Ended, "status 3: journal: line 2"):
            self.started()

    def test_a_journal_without_room(self):
        """A change is refused then, and nothing else, and the status says so behind a look-up. Where the file may not even keep what it has, the
        service says so: it isn't killed by the signal of a file that may grow no further, which programs of Python ignore."""
        words = (f"import sys; from resource import *; setrlimit(RLIMIT_FSIZE, (135_500, 1_000_000)); sys.path.insert(0, {kit.CLIENT!r})\n"
                 "from mi_client import Ended, Refused, Server\nfrom mi_client.service_lines import status\n"
                 "full = lambda: (status(db)['journal'] or {}).get('full')\n"
                 f"server = Server(service={SERVICE!r}, journal={self.journal!r}, wait=60)\n"
                 "db = server.connect(60)\n"
                 "db.begin(); n = 0\n"
                 "try:\n    while n < 1000: n += db.insert({'owner': str(n), 'balance': 1, 'vip': False}) == n\n"
                 "except Refused as refused: print(n, refused, db.size() - n, full(), db.undo(), db.size())\n"
                 "prlimit(server.process.pid, RLIMIT_FSIZE, (900_000, 1_000_000))\n"
                 "print(db.begin(), db.insert({'owner': 'z', 'balance': 1, 'vip': True}), full())\n"
                 "prlimit(server.process.pid, RLIMIT_FSIZE, (100, 1_000_000))\n"
                 "try: db.undo()\n"
                 "except Ended: print(server.ended(60), server.process.stderr.read().decode())\n")
        ran = subprocess.run([sys.executable, "-c", words], capture_output=True, text=True, timeout=120)
        full = "journal: the service's journal has no room for the line, and nothing has changed"
        ends = f"4 fault: journal: {self.journal}: File too large \\(27\\)\n"
        self.assertRegex(ran.stdout, f"^\\d\\d {full} 0 (True|None) 0 0\n1 0 (False|None)\n{ends}", ran.stderr)
        with self.started() as server, server.connect(20) as db:
            self.assertEqual((db.size(), db.revision().depth), (0, 0))

    def test_its_end(self):
        server = self.started()
        self.assertIsNone(server.process.poll())
        server.close()
        server.close()
        self.assertIsNotNone(server.process.poll())

    def test_words(self):
        for how in ({}, {"program": "x", "service": "x"}, {"program": "x", "journal": "j"}, {"program": "x", "sync": "turn"}):
            with self.assertRaises(ValueError):
                Server(**how)
        with self.assertRaises(OSError):
            Server(service="/no/such/program")


if __name__ == "__main__":
    unittest.main()
