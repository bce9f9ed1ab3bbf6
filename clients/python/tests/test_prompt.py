"""The prompt: short forms, completion, help, what it shows, and what it runs."""
import json
import pickle
import unittest

import kit
from kit import ANN, program

from mi_client import Database, Refused, Schema
from mi_client.commands import COMMANDS, REFUSALS
from mi_tools import show
from mi_tools.completion import completions
from mi_tools.prompt import Prompt, help_of
from mi_tools.shorthand import line_of

SHOP = Schema.read(f"{kit.TOP}/examples/shop.toml")


class Typing(unittest.TestCase):
    def test_short_form(self) -> None:
        for typed, want in [
            ("size", '{"cmd":"size"}'),
            ("find index=by_owner key=[\"ann b\"]", '{"cmd":"find","index":"by_owner","key":["ann b"]}'),
            ('range index=x lower={"ge":[1, 2]}  limit=5', '{"cmd":"range","index":"x","lower":{"ge":[1,2]},"limit":5}'),
            ('{"cmd":"size"}', '{"cmd":"size"}'),
            ("get 0", '{"cmd":"get","id":0}'),
            ("get 0 player", '{"cmd":"get","id":0,"table":"player"}'),
            ("find by_owner ann", '{"cmd":"find","index":"by_owner","key":["ann"]}'),
            ("count by_class [true, 5]", '{"cmd":"count","index":"by_class","key":[true,5]}'),
            ('insert {"owner": "a b", "balance": 1}', '{"cmd":"insert","row":{"owner":"a b","balance":1}}'),
            ("range by_balance limit=3", '{"cmd":"range","index":"by_balance","limit":3}'),
            ("fly high=1", '{"cmd":"fly","high":1}'),
        ]:
            self.assertEqual(line_of(typed), want)
        for typed in ["undo 1", "get 0 a b", "fly high", 'insert row={"owner":', "count by_vip [true"]:
            self.assertRaises(ValueError, line_of, typed)

    def test_completion(self) -> None:
        for line, word, want in [
            ("er", "er", ["erase ", "erase_key "]),
            ("help upper", "upper", ["upper_rank "]),
            ("help un", "un", ["undo ", "undo_all ", "unique "]),
            ("range re", "re", ["reverse="]),
            ("what re", "re", []),
        ]:
            self.assertEqual(completions(line, word), want)
            self.assertEqual(completions(line, word, SHOP), want)

    def test_completion_by_the_schema(self) -> None:
        first, second = SHOP.tables
        names = [it.name for it in first.indexes if it.kind == "ranked"]
        for line, want in [
            ("rank ", [f"{it} " for it in names]),
            ("rank index=", [f"index={it} " for it in names]),
            (f"size table={second.name[:2]}", [f"table={second.name} "]),
            (f"get 0 {second.name[:2]}", [f"{second.name} "]),
            (f"range table={second.name} ", [f"{it.name} " for it in second.indexes if it.kind in ("ordered", "ranked")]),
            ('insert row={"', [f'row={{"{it.name}":' for it in first.columns]),
            (f'modify 0 set={{"x":1,"{first.columns[0].name[:2]}', [f'set={{"x":1,"{first.columns[0].name}":']),
            (f'insert row={{"x":1, "{first.columns[0].name[:2]}', [f'"{first.columns[0].name}":']),
        ]:
            self.assertEqual(completions(line, line.rpartition(" ")[2], SHOP), want, line)

    def test_help(self) -> None:
        self.assertIn("[rollback]", help_of("modify"))
        self.assertIn("no command and no refusal", help_of("fly"))
        for name in [*COMMANDS, *REFUSALS]:
            self.assertIn(name, help_of(""))
        self.assertEqual(help_of("row").splitlines()[0], "refused as row: the row, `set` or `add` doesn't fit the columns")
        self.assertIn("the records between two bounds", help_of("range"))
        self.assertIn("refused as range: an addition leaves 64 bits", help_of("range"))

    def test_every_example_is_a_command(self) -> None:
        with Database.start(program()) as db:
            for it in COMMANDS.values():
                reply = db.ask_line(line_of(it.example))
                self.assertNotIn(reply, ['{"error":"form","ok":false}', '{"error":"json","ok":false}'])


class Showing(unittest.TestCase):
    def test_a_page(self) -> None:
        rows = [{"id": 0, "owner": "ann", "balance": 50, "vip": False}, {"id": 12, "owner": "b\nöb", "balance": -7, "vip": True}]
        want = [
            "id  owner  balance  vip",
            "--  -----  -------  -----",
            " 0  ann         50  false",
            "12  b\\nöb       -7  true",
            "2 rows; more stand behind",
        ]
        line = json.dumps({"more": True, "ok": True, "rows": rows})
        self.assertEqual(show.reply(line, Schema.built_in(), None).splitlines(), want)
        self.assertEqual(show.reply('{"more":false,"ok":true,"rows":[]}', None, None), "no rows")
        self.assertEqual(show.reply('{"depth":0,"held":0,"ok":true,"revision":3}', None, None), "depth 0, held 0, revision 3")
        self.assertEqual(show.reply('{"ok":true}', None, None), "ok")
        self.assertEqual(show.cell("x" * 50), "x" * 38 + "..")
        self.assertEqual(show.width_of("漢a"), 3)

    def test_settings_and_refusals(self) -> None:
        prompt = Prompt(kit.start(self), typed=False, tables=True, times=False)
        for typed, want in [
            (f"insert {json.dumps(ANN)}", "id 0"),
            ("find by_owner ann", "id  owner  balance  vip\n--  -----  -------  -----\n 0  ann         50  false"),
            ('range by_class lower={"ge":{"vip":false}} limit=1',
             "id  owner  balance  vip\n--  -----  -------  -----\n 0  ann         50  false\n1 row"),
            ('find by_class key={"vip":false}', "id  owner  balance  vip\n--  -----  -------  -----\n 0  ann         50  false"),
            ('find by_class key={"owner":"a"}', "not sent: owner is no part of the key of by_class, which is vip, balance"),
            ('insert {"owner":"bob","balance":1.5,"vip":false}',
             '{"error":"row","ok":false}\nbalance is a float; int wanted (help row)'),
            ("rank by_class 0", '{"error":"kind","ok":false}\nby_class is ordered, and rank is for ranked ones: id, by_balance (help kind)'),
            ("get 9", '{"error":"id","ok":false}\nthere is no record 9 (help id)'),
            ("get x", '{"error":"form","ok":false}\nid is a text; a whole number from 0 wanted (help form)'),
            ("{", '{"error":"json","ok":false}\nit is no JSON, or not UTF-8 (help json)'),
            ("\\x", "replies are shown as lines"),
            ("get 0", '{"ok":true,"row":{"balance":50,"id":0,"owner":"ann","vip":false}}'),
            ("\\y", "not sent: there is no \\y; help lists what is there"),
            ("\\i /no/such/file", "not run: [Errno 2] No such file or directory: '/no/such/file'"),
        ]:
            self.assertEqual(prompt.answer(typed), want, typed)
        self.assertIn("by_class    ordered         -vip, balance", prompt.answer("\\d") or "")
        prompt.answer("\\t")
        self.assertRegex(prompt.answer("size") or "", r'^\{"ok":true,"size":1\}\n\([0-9.]+ ms\)$')
        self.assertIsNone(prompt.answer("quit"))

    def test_refusals_of_a_member_of_a_ledger(self) -> None:
        prompt = Prompt(kit.start(self), typed=False, tables=True, times=False)
        follows = '{"error":"leader","leader":"127.0.0.1:8002","ok":false}'
        self.assertEqual(prompt.shown('{"cmd":"undo"}', follows), f"{follows}\n{REFUSALS['leader'][0]} (help leader)")
        for line in ('{"cmd":"checkpoint"}', "[]"):
            self.assertEqual(prompt.shown(line, '{"error":"checkpoint","ok":false}'), '{"error":"checkpoint","ok":false}')

    def test_a_refusal_says_who_leads(self) -> None:
        follows = Refused({"error": "leader", "leader": "10.0.0.3:8002", "ok": False}, REFUSALS["leader"][0])
        self.assertEqual((str(follows), follows.leader), ("leader: this member follows 10.0.0.3:8002, which takes changes", "10.0.0.3:8002"))
        self.assertEqual(pickle.loads(pickle.dumps(follows)).leader, "10.0.0.3:8002")
        unknown = Refused({"error": "leader", "leader": "", "ok": False}, REFUSALS["leader"][0])
        self.assertEqual((unknown.why, unknown.leader), (REFUSALS["leader"][0], None))

    def test_program(self) -> None:
        typed = "insert row={\"owner\":\"ann\",\"balance\":50,\"vip\":false}\nget id=0\nhelp size\nget 0\nundo 1\nquit\nsize\n"
        ran = kit.ran("--program", program(), typed=typed)
        row = '{"ok":true,"row":{"balance":50,"id":0,"owner":"ann","vip":false}}'
        self.assertEqual(ran.stdout.splitlines()[:2], ['{"id":0,"ok":true}', row])
        self.assertTrue(ran.stdout.endswith(f"\n{row}\nnot sent: `1` has no MEMBER=VALUE; help undo has the members\n"), ran.stdout)
        self.assertEqual((ran.returncode, ran.stderr), (0, ""))

    def test_a_file(self) -> None:
        path = kit.written(self, f"insert {json.dumps(ANN)}\n\nsize\n", "lines.txt")
        ran = kit.ran("prompt", "--run", path)
        self.assertEqual(ran.stdout, '{"id":0,"ok":true}\n{"ok":true,"size":1}\n')
        ran = kit.ran("--tables", typed=f"\\i {path}\nget 0\n")
        self.assertEqual(ran.stdout, "id 0\nsize 1\nid  owner  balance  vip\n--  -----  -------  -----\n 0  ann         50  false\n")

    def test_what_goes_wrong(self) -> None:
        ran = kit.ran("--schema", "/no/such/file")
        self.assertEqual((ran.returncode, ran.stderr), (1, "weltiyo: the server ended with status 3: schema: file: /no/such/file: No such file or directory\n"))
        self.assertEqual(kit.ran("--run", "/no/such/file").returncode, 1)
        ran = kit.ran("fly")
        self.assertEqual((ran.returncode, ran.stderr.splitlines()[0]), (2, "weltiyo: there is no tool fly"))
        self.assertIn("prompt", kit.ran("--help").stdout)
        self.assertRegex(kit.ran("--version").stdout, r"^weltiyo [0-9.]+$")


if __name__ == "__main__":
    unittest.main()
