"""What a refusal's message says: that of the Node client is that of this one without a schema."""
import json
import shutil
import subprocess
import unittest
from typing import Any, Dict, List, Tuple

import kit

from mi_client import Refused, explain
from mi_client.commands import REFUSALS

SAYS = """const { Refused } = require(process.argv[1]);
const made = JSON.parse(require("node:fs").readFileSync(0)).map(([reply, asked, change]) => new Refused(reply, change ?? undefined, asked));
console.log(JSON.stringify(made.map((it) => it.message)));"""

Case = Tuple[Dict[str, Any], Dict[str, Any], Any]
CASES: List[Case] = [
    *(({"error": word}, {"cmd": "size"}, None) for word in REFUSALS if word not in ("form", "id", "unique")),
    ({"error": "later"}, {"cmd": "size"}, None),
    ({"error": "unique", "id": 3, "index": "by_owner"}, {"cmd": "insert", "row": {}}, None),
    ({"error": "unique", "id": 3, "index": "by_owner", "lost": False}, {"cmd": "modify", "id": 1}, 4),
    ({"error": "unique", "id": 3, "index": "by_owner", "lost": True}, {"cmd": "modify", "id": 1}, None),
    ({"error": "leader", "leader": "127.0.0.1:8002"}, {"cmd": "erase", "id": 1}, None),
    ({"error": "leader", "leader": ""}, {"cmd": "erase", "id": 1}, None),
    *(({"error": "id"}, asked, 0) for asked in (
        {"cmd": "find", "index": "by_class", "key": [True, 5, "\u00e9\""]}, {"cmd": "nth", "index": "i", "n": 7}, {"cmd": "get", "id": 5},
        {"cmd": "insert", "row": {}, "before": {"index": "line", "id": 8}}, {"cmd": "insert", "row": {}}, {"cmd": "list", "index": "line", "after": 2},
        {"cmd": "relocate", "index": "line", "id": 1}, {"cmd": "relocate", "index": "line", "id": 1, "before": 0}, {"cmd": "rank", "index": "i", "id": 1},
    )),
]


@unittest.skipUnless(shutil.which("node"), "node isn't there")
class InNode(unittest.TestCase):
    def test_messages(self) -> None:
        ours = [str(Refused(reply, explain.why(None, asked, reply["error"]), change)) for reply, asked, change in CASES]
        words = ["node", "-e", SAYS, f"{kit.TOP}/clients/node/weltiyo.js"]
        ran = subprocess.run(words, input=json.dumps(CASES), capture_output=True, text=True, timeout=60)
        self.assertEqual(ran.returncode, 0, ran.stderr)
        self.assertEqual(json.loads(ran.stdout), ours)

    def test_a_form(self) -> None:
        """The members of commands aren't known there, so it is what the word means."""
        words = ["node", "-e", SAYS, f"{kit.TOP}/clients/node/weltiyo.js"]
        ran = subprocess.run(words, input='[[{"error":"form"},{"cmd":"get"},null]]', capture_output=True, text=True, timeout=60)
        self.assertEqual(json.loads(ran.stdout), [f"form: {REFUSALS['form'][0]}"])


if __name__ == "__main__":
    unittest.main()
