"""Where the tools get their rows from: a server, a service's journal, and never an empty server that takes the place of a backup."""
import argparse
import json
import os
import socket
import threading
import unittest

import kit
from kit import ANN, BOB
from test_service import SERVICE

from mi_client import Schema, Server, explain
from mi_client.schema import BUILT_IN
from mi_tools import rowfiles
from mi_tools.meaning import hash_of
from mi_tools.opening import add_server
from mi_replica import checkpoint, member

HEADER = '{"journal":1,"revision":0,"schema":"4a97872940a86388d00bd4dd133ac68c2bb50dead4fefa2fb1b161a892770f4b"}'
"""That of the built-in table, as `docs/OPERATING.md` has it."""


class Sources(unittest.TestCase):
    def setUp(self) -> None:
        self.folder = kit.folder(self)
        self.backup = f"{self.folder}/backup.jsonl"
        self.write(self.backup, "a backup\n")

    def write(self, path: str, text: str) -> None:
        with open(path, "w", encoding="utf-8") as file:
            file.write(text)

    def read(self, path: str) -> str:
        with open(path, encoding="utf-8") as file:
            return file.read()

    def journal(self, *lines: str, end: str = "") -> str:
        path = f"{self.folder}/journal"
        self.write(path, "".join(f"{it}\n" for it in [HEADER, *lines]) + end)
        return path

    def test_what_reads_starts_no_empty_server(self) -> None:
        for words in (["dump", self.backup], ["export", self.backup], ["top", "--count", "1"], ["metrics"], ["plot", "by_balance"], ["web"]):
            ran = kit.ran(*words)
            self.assertEqual((ran.returncode, ran.stdout), (2, ""), words)
            for name in ("--connect", "--program", "--journal"):
                self.assertIn(name, ran.stderr.partition("error:")[2], words)
        self.assertEqual(self.read(self.backup), "a backup\n")
        self.assertEqual(kit.ran("dump", "--connect", "1", "--journal", "x").returncode, 2)

    def test_a_program_without_rows(self) -> None:
        """It was just started, so there is nothing to read. One that brings rows of its own is read."""
        path, own = kit.program(), f"{self.folder}/own"
        for words in (["dump", self.backup], ["export", self.backup], ["top", "--count", "1"], ["metrics"], ["plot", "id"]):
            ran = kit.ran(*words, "--program", path)
            self.assertEqual((ran.returncode, ran.stdout), (2, ""), words)
            said = f"^weltiyo[a-z ]*: {path} was just started, and its tables are empty: .*--connect PORT.*--journal FILE.*--force"
            self.assertRegex(ran.stderr, said)
            self.assertEqual(self.read(self.backup), "a backup\n")
            self.assertEqual(kit.ran(*words, "--program", path, "--force").returncode, 0, words)
            self.write(self.backup, "a backup\n")
        self.write(own, f'#!/bin/sh\n(echo \'{json.dumps({"cmd": "insert", "row": ANN})}\'; cat) | {path} | (read -r _; cat)\n')
        os.chmod(own, 0o755)
        ran = kit.ran("dump", "--program", own)
        self.assertEqual((ran.returncode, ran.stderr), (0, "1 rows written\n"))

    def test_what_force_does_stands_in_the_help(self) -> None:
        for tool, more in [("top", ""), ("metrics", ""), ("plot", ""), ("web", ""), ("dump", ", and empties a file that has rows")]:
            said = " ".join(kit.ran(tool, "--help").stdout.split())
            self.assertIn(f"--force takes a --program without rows{more} --", said, tool)

    def test_no_rows_over_some(self) -> None:
        path = self.journal('{"cmd":"start"}')
        for words in (["dump", "--journal", path, self.backup], ["export", "--journal", path, self.backup],
                      ["load", os.devnull, "--dump", self.backup]):
            ran = kit.ran(*words)
            self.assertEqual((ran.returncode, ran.stderr.splitlines()[-1]),
                             (1, f"weltiyo {words[0]}: there is no row to write, and {self.backup} has some: --force empties it"))
            self.assertEqual(self.read(self.backup), "a backup\n")
            self.assertEqual(kit.ran(*words, "--force").returncode, 0)
            self.assertEqual(self.read(self.backup), "")
            self.assertEqual(kit.ran(*words).returncode, 0)
            self.write(self.backup, "a backup\n")

    def test_names_alone_are_no_rows(self) -> None:
        for kind, text, want in [("csv", "id,owner\n", False), ("csv", "id,owner\n0,ann\n", True), ("jsonl", "\n", False), ("jsonl", "{}", True)]:
            self.write(self.backup, text)
            self.assertEqual(rowfiles.has_rows(self.backup, kind), want, text)
        self.assertFalse(rowfiles.has_rows("-", "csv") or rowfiles.has_rows(f"{self.folder}/none", "csv"))

    def test_a_server_that_goes_away_leaves_the_backup(self) -> None:
        gone = f"{self.folder}/gone"
        self.write(gone, f'#!/bin/sh\nhead -n 1 | {kit.program()}\nhead -n 1 > {os.devnull}; echo \'{{"ok":true,"size":7}}\'\n')
        os.chmod(gone, 0o755)
        ran = kit.ran("dump", "--program", gone, self.backup)
        self.assertEqual((ran.returncode, self.read(self.backup)), (1, "a backup\n"), ran.stderr)

    def test_a_journal(self) -> None:
        insert = [json.dumps({"cmd": "insert", "row": it}) for it in (ANN, BOB)]
        for end in ('{"cmd":"erase","id":0}' + "\0" * 70_000, "\0" * 1_100_000, '{"cmd":"erase","id":0}'):
            path = self.journal(insert[0], '{"cmd":"start"}', insert[1], end=end)
            before = self.read(path)
            ran = kit.ran("dump", "--journal", path)
            self.assertEqual((ran.returncode, ran.stderr), (0, "1 rows written\n"))
        self.assertEqual([json.loads(it) for it in ran.stdout.splitlines()], [{"id": 0, "row": ANN, "table": "accounts"}])
        self.assertEqual(self.read(path), before)
        self.assertIn('weltiyo_rows{table="accounts"} 1', kit.ran("metrics", "--journal", path).stdout)
        self.assertIn("0,ann,50,false", kit.ran("export", "--format", "csv", "--journal", path).stdout)
        self.assertRegex(kit.ran("plot", "--journal", path, "by_balance").stdout, "50 +1 #")

    def test_the_journal_is_no_file_to_write(self) -> None:
        path, other = self.journal(json.dumps({"cmd": "insert", "row": ANN})), f"{self.folder}/other"
        os.symlink(path, other)
        before = self.read(path)
        os.symlink(path, f"{self.folder}/rows.part")
        for words in (["dump", other], ["export", path], ["metrics", "--file", path], ["plot", "by_balance", "--svg", path],
                      ["dump", f"{self.folder}/rows"]):
            ran = kit.ran(*words, "--journal", path)
            self.assertEqual((ran.returncode, self.read(path)), (2, before), words)
            self.assertIn("the journal is read, and isn't the file to write", ran.stderr)

    def test_a_journal_that_the_service_refuses(self) -> None:
        for lines, words in [
            (['{"cmd":"size"}'], ':2: no line of a journal of this schema; the server answers {"ok":true,"size":0}'),
            (['{"cmd":"start"}', '{"cmd":"erase","id":0}'], ':3: no line of a journal of this schema; the server answers {"error":"id","ok":false}'),
            (['{"cmd":"start"}', ""], ":3: an empty line"),
        ]:
            path = self.journal(*lines)
            ran = kit.ran("dump", "--journal", path, self.backup)
            self.assertEqual((ran.returncode, ran.stderr), (1, f"weltiyo dump: {path}{words}\n"))
        for text in ('{"cmd":"start"}\n', "", HEADER):
            self.write(path, text)
            ran = kit.ran("dump", "--journal", path, self.backup)
            self.assertEqual((ran.returncode, ran.stderr), (1, f"weltiyo dump: {path}:1: no header of a journal of format 1\n"))
        self.assertEqual(kit.ran("dump", "--journal", f"{self.folder}/none", self.backup).returncode, 1)
        self.assertEqual(self.read(self.backup), "a backup\n")

    def test_a_journal_with_bytes_behind_zeros(self) -> None:
        """As a copy of one that was written meanwhile. A start of the service would cut them off."""
        path = self.journal('{"cmd":"start"}', end="{" + "\0" * 5_000 + '{"cmd":"undo"}\n' + "\0" * 9)
        ran = kit.ran("dump", "--journal", path, self.backup)
        lost = "zeros, and 5015 bytes up to the last that is none, which a start of the service would cut off"
        self.assertEqual((ran.returncode, ran.stderr, self.read(self.backup)), (1, f"weltiyo dump: {path}:3: {lost}\n", "a backup\n"))

    def test_another_schema_than_the_journals(self) -> None:
        """However well its lines fit. The file stays, and the status is 2 as for other wrong words."""
        path = self.journal('{"cmd":"start"}')
        shop, more = f"{kit.TOP}/examples/shop.toml", kit.written(self, BUILT_IN.replace('"accounts"\n', '"accounts"\nmax_rows = 7\n'))
        for tool in (["dump", self.backup], ["export", self.backup], ["top", "--count", "1"], ["metrics"], ["plot", "id"]):
            for schema in (shop, more):
                ran = kit.ran(*tool, "--journal", path, "--schema", schema)
                self.assertEqual((ran.returncode, ran.stdout), (2, ""), (tool, ran.stderr))
                self.assertIn(f"{path}: the journal is of another schema than {schema}", ran.stderr)
                self.assertIn("--schema FILE", ran.stderr)
        self.write(path, HEADER.replace("4a97", "0000") + "\n")
        self.assertIn("than the built-in table accounts", kit.ran("dump", "--journal", path, self.backup).stderr)
        self.write(path, HEADER.replace('"revision":0', '"revision":5') + "\n")
        ran = kit.ran("dump", "--journal", path, self.backup)
        self.assertEqual((ran.returncode, ran.stderr),
                         (1, f"weltiyo dump: {path}:1: the header begins with the revision 5, and its schema with 0\n"))
        self.assertEqual(self.read(self.backup), "a backup\n")

    def test_the_checkpoint_of_a_member_over_mi_server(self) -> None:
        """Its header has the schema's bytes for its meaning."""
        path, schema = f"{self.folder}/checkpoint", kit.written(self, BUILT_IN)
        for file in (None, schema):
            with open(path, "wb") as made:
                made.write(checkpoint.header(0, member.schema_hash(file)) + b'{"cmd":"start"}\n')
            words = ["dump", "--journal", path, *(["--schema", file] if file else [])]
            self.assertEqual(kit.ran(*words).returncode, 0)
        self.assertEqual(kit.ran("dump", "--journal", path).returncode, 2)

    def test_a_schema_that_is_read_once(self) -> None:
        path, pipe = self.journal('{"cmd":"start"}'), f"{self.folder}/pipe"
        os.mkfifo(pipe)
        threading.Thread(target=self.write, args=(pipe, BUILT_IN), daemon=True).start()
        ran = kit.ran("dump", "--table", "accounts", "--journal", path, "--schema", pipe)
        self.assertEqual((ran.returncode, ran.stdout), (2, ""))
        self.assertIn("a file that can be read twice", ran.stderr)

    def test_the_hash_is_the_services(self) -> None:
        """Of what a schema means, and of nothing else in its file."""
        odd = """format = 2 # with a note
first_revision = 7
[[table]]
name = "b"
max_rows = 3
first_arrival = 9
column = [{ type = "flag", name = "z" }, { name = "a", type = "int" }, { name = "t", type = "text" }]
[[table.index]]
key = ["-a", "z", "-t"]
name = "i"
kind = "ranked"
unique = true
[[table.index]]
name = "s"
kind = "sequenced"
[[table]]
first_id = 1000
name = "a"
column = [{ name = "x", type = "text" }]
index = [{ name = "h", kind = "hashed", key = ["x"] }]
"""
        schemas = [None, f"{kit.TOP}/examples/shop.toml", f"{kit.TOP}/examples/accounts.toml", kit.written(self, odd)]
        digests = set()
        for n, schema in enumerate(schemas):
            path = f"{self.folder}/journal{n}"
            with Server(service=SERVICE, schema=schema, journal=path):
                header = json.loads(self.read(path))
            read = Schema.read(schema) if schema else Schema.built_in()
            self.assertEqual((header["schema"], header["revision"]), (hash_of(read), read.first_revision))
            digests.add(header["schema"])
        self.assertEqual(len(digests), len(schemas))
        again = odd.replace(" # with a note", "").replace("max_rows = 3\nfirst_arrival = 9", "first_arrival = 9\nmax_rows = 3")
        self.assertEqual(hash_of(Schema.of_text(again)), hash_of(Schema.of_text(odd)))
        for old, new in [("= 7", "= 8"), ("= 9", "= 8"), ("= 3", "= 4"), ("1000", "1001"), ("-t", "t"), ("true", "false"), ("ranked", "ordered")]:
            self.assertNotEqual(hash_of(Schema.of_text(odd.replace(old, new))), hash_of(Schema.of_text(odd)), old)

    def test_the_journal_of_a_running_service(self) -> None:
        path = f"{self.folder}/journal"
        with Server(service=SERVICE, journal=path) as server, server.connect(20) as db:
            db.insert(ANN)
            db.begin()
            db.erase(0)
            self.assertIn('"owner":"ann"', kit.ran("dump", "--journal", path).stdout)
            db.undo()
            db.insert(BOB)
            self.assertEqual(kit.ran("dump", "--journal", path).stderr, "2 rows written\n")
        self.assertTrue(self.read(path).endswith("\0" * 65_536))

    def test_another_schema(self) -> None:
        """It is told as that, whatever of it the server lacks, and the file stays."""
        shop, other = f"{kit.TOP}/examples/shop.toml", 'table = "accounts"\ncolumn = [{ name = "owner", type = "text" }]'
        with Server(service=SERVICE) as server:
            with server.connect(20) as db:
                db.insert(ANN)
            for path, words in [
                (shop, "the server refuses the table item as table: this schema isn't its own; name it by --schema FILE"),
                (kit.written(self, other), "the server's rows of accounts have balance, id, owner, vip, and not id, owner: this schema isn't"),
                (kit.written(self, 'table = "accounts"\nindex = 5'), ".*/schema.toml: this is no schema"),
            ]:
                for tool in (["dump", self.backup], ["export", "--format", "csv", self.backup], ["load", self.backup], ["plot", "id"], []):
                    ran = kit.ran(*tool, "--connect", str(server.port), "--schema", path)
                    self.assertEqual(ran.returncode, 1, (tool, ran.stderr))
                    self.assertRegex(ran.stderr, f"^weltiyo( [a-z]+)?: {words}")
        self.assertEqual(self.read(self.backup), "a backup\n")
        said = explain.why(Schema.read(shop), {"cmd": "size", "table": "item"}, "table")
        self.assertEqual(said, "the server has no table item, and this schema does: it isn't the server's")

    def test_a_server_that_gives_no_reply(self) -> None:
        with socket.create_server(("127.0.0.1", 0), backlog=64) as silent:
            port = silent.getsockname()[1]
            for words in ([], ["dump", "--table", "t"], ["export"], ["load", self.backup], ["import", self.backup], ["top"], ["metrics"],
                          ["plot", "id"], ["web"]):
                self.write(self.backup, "{}\n")
                ran = kit.ran(*words, "--connect", str(port), "--timeout", "0.1", "--schema", f"{kit.TOP}/examples/shop.toml", typed="size\n")
                self.assertEqual((ran.returncode, ran.stdout), (1, ""), (words, ran.stderr))
                self.assertIn(f"port {port} gave no reply for 0.1 seconds. It may be busy, all its places may be taken", ran.stderr)
                self.assertEqual(self.read(self.backup), "{}\n")
        parser = argparse.ArgumentParser()
        add_server(parser)
        self.assertEqual(parser.parse_args([]).timeout, 5)
        self.assertEqual(kit.ran("dump", "--timeout", "-1").returncode, 2)

    def test_no_program(self) -> None:
        for words in ([], ["dump", "--program", "/no/such/program"], ["load", os.devnull]):
            ran = kit.ran(*words, variables={"MI_SERVER": "/no/such/program"})
            self.assertEqual(ran.returncode, 1, words)
            for name in ("there is no program /no/such/program", "--program", "MI_SERVER", "--connect"):
                self.assertIn(name, ran.stderr)
            self.assertNotIn("Errno", ran.stderr)


if __name__ == "__main__":
    unittest.main()
