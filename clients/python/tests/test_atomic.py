"""Changes that are done all or not at all, and what a session costs: counted in what is written at one go and in waits for replies, over a
channel that stands for a server; and what they do, on a real one."""
import contextlib
import itertools
import pickle
import sys
import threading
import unittest
from typing import Any, Dict, Iterator, List, Optional

import kit
import test_embedded
import wire
from kit import ANN, BOB

from mi_client import Database, Embedded, Ended, Refused, Server, calls
from mi_client.atomic import PIECE

CID = {"owner": "cid", "balance": 1, "vip": True}


def refusing(cmd: str, word: str = "unique", **members: Any) -> wire.Answer:
    """A server that refuses a command."""
    return lambda asked: {"error": word, "ok": False, **members} if asked["cmd"] == cmd else None


def inserts(n: int) -> List[Any]:
    return [calls.insert({"owner": f"o{it}", "balance": it, "vip": False}) for it in range(n)]


class Costs(unittest.TestCase):
    """What goes over the wire."""

    def told(self, db: Database) -> "tuple[list[str], int]":
        made: wire.Wire = db._channel  # type: ignore[assignment]
        return [" ".join(it) for it in made.writes], made.waits

    def test_a_session(self) -> None:
        db = wire.opened()
        with db.session():
            db.modify(0, add={"balance": 1})
        self.assertEqual(self.told(db), (["start", "modify", "squash"], 3))
        db = wire.opened()
        with contextlib.suppress(KeyError), db.session():
            db.modify(0, add={"balance": 1})
            raise KeyError
        self.assertEqual(self.told(db), (["start", "modify", "undo"], 3))

    def test_sessions_in_a_session(self) -> None:
        db = wire.opened()
        with db.session():
            with db.session(), db.pipeline() as ahead:
                ahead.erase(0)
            db.atomically([calls.erase(1)])
        self.assertEqual(self.told(db)[0], ["start", "start", "erase", "squash", "start erase", "squash", "squash"])

    def test_a_session_whose_block_may_have_ended_it(self) -> None:
        """It asks what is held, and ends no more than that."""
        steps = [lambda db: db.push(), lambda db: db.ask("commit", revision=1), lambda db: db.ask_line('{"cmd":"size"}'),
                 lambda db: list(db.ask_lines([b'{"cmd":"size"}'])), lambda db: db.send(calls.undo_all())]
        for step in steps:
            db = wire.opened()
            with db.session(), db.session():
                step(db)
            self.assertEqual([it for it in self.told(db)[0] if it == "revision"], ["revision"] * 4)

    def test_changes_together(self) -> None:
        """As many as the bare lines cost, which are written by hand."""
        by_hand, db = wire.opened(), wire.opened()
        list(by_hand.ask_lines(['{"cmd":"start"}', *(it.line() for it in inserts(20))]))
        by_hand.ask_line('{"cmd":"squash"}')
        db.atomically(inserts(20))
        self.assertEqual(self.told(db), ([" ".join(["start", *["insert"] * 20]), "squash"], 2))
        self.assertEqual(self.told(db), self.told(by_hand))

    def test_more_than_a_piece(self) -> None:
        """The rest is written once the session is open: another connection may let go of its own between two pieces."""
        changes, db = inserts(100), wire.opened()
        first = next(n for n, size in enumerate(itertools.accumulate((len(it.line()) for it in changes), initial=16)) if size > PIECE) - 1
        self.assertEqual(db.atomically(changes), [0] * 100)
        self.assertEqual([len(it) for it in db._channel.writes], [1 + first, 100 - first, 1])
        self.assertEqual(db._channel.waits, 3)
        db = wire.opened(refusing("start", "busy"))
        with self.assertRaisesRegex(Ended, "^the session was refused as busy, and a change behind it was done outside of one$"):
            db.atomically(inserts(100))
        self.assertEqual([len(it) for it in db._channel.writes], [1 + first])
        db = wire.opened(lambda it: {"error": "full", "ok": False} if it["cmd"] == "insert" and it["row"]["balance"] == 1 else None)
        with self.assertRaisesRegex(Refused, "^change 1: full"):
            db.atomically(inserts(100))
        self.assertEqual([len(it) for it in db._channel.writes], [1 + first, 1])

    def test_a_session_that_is_refused(self) -> None:
        def all_refused(asked: Dict[str, Any]) -> Optional[Dict[str, Any]]:
            return {"error": "busy", "ok": False} if asked["cmd"] in ("start", "insert") else None

        db = wire.opened(all_refused)
        with self.assertRaisesRegex(Refused, "^busy") as caught:
            db.atomically([calls.size(), *inserts(2)])
        self.assertIsNone(caught.exception.change)
        self.assertEqual((self.told(db), db.is_open, db._channel.depth), ((["start size insert insert"], 1), True, 1))
        for word, change in (("memory", calls.insert(ANN)), ("depth", calls.erase(0))):
            db = wire.opened(refusing("start", word))
            for _ in range(2):
                with self.assertRaisesRegex(Ended, f"^the session was refused as {word}, and a change behind it was done outside of one"):
                    db.atomically([change])
            self.assertFalse(db.is_open)
        db = wire.opened(lambda it: {"error": "unique", "ok": False, "id": 0, "index": "i", "lost": True} if it["cmd"] != "size" else None)
        with self.assertRaises(Ended):
            db.atomically([calls.modify(0, set={"owner": "ann"}, rollback=False)])

    def test_a_squash_that_is_refused(self) -> None:
        """As `journal`: what was done is undone, and the connection goes on."""
        db = wire.opened(refusing("squash", "journal"))
        with self.assertRaisesRegex(Refused, "^journal: the service's journal has no room"), db.session():
            db.erase(0)
        self.assertEqual((self.told(db)[0], db.is_open), (["start", "erase", "squash", "undo"], True))
        db = wire.opened(refusing("squash", "journal"))
        with self.assertRaisesRegex(Refused, "^journal") as caught:
            db.atomically(inserts(2))
        self.assertEqual((self.told(db)[0], db.is_open, caught.exception.change), (["start insert insert", "squash", "undo"], True, None))

    def test_what_is_wrong_ahead_of_the_first_line(self) -> None:
        def breaks() -> Iterator[Any]:
            yield calls.insert(ANN)
            raise KeyError

        db = wire.opened()
        wrong = [(ValueError, [calls.erase(0), calls.find("by_class", True)]), (TypeError, [calls.insert({"owner": object()})]), (KeyError, breaks())]
        wrong += [(ValueError, [calls.insert(ANN), it]) for it in (calls.squash(), calls.begin(), calls.commit(1), calls.push(), calls.undo_all())]
        wrong.append((TypeError, [calls.insert(ANN), {"cmd": "erase", "id": 0}]))
        for error, changes in wrong:
            self.assertRaises(error, db.atomically, changes)
        self.assertEqual((self.told(db), db.atomically([]), self.told(db)), (([], 0), [], ([], 0)))


class Interrupts(unittest.TestCase):
    def test_at_each_line(self) -> None:
        """Either no session is open behind it, or the connection has ended, so that the server undoes what it holds."""
        long = [calls.insert({"owner": "x" * 1500}) for _ in range(4)]  # (more than a piece)
        for changes in (inserts(2), [*inserts(1), calls.erase(9)], long):
            for n in itertools.count(1):
                db = wire.opened(refusing("erase", "id"))
                is_over = self.interrupted(n, db, changes)
                self.assertTrue(not db.is_open or db._channel.depth == 0, n)
                if db.is_open:
                    db.insert(ANN)
                else:
                    self.assertRaisesRegex(Ended, "interrupted|closed", db.size)
                if is_over:
                    break
            self.assertGreater(n, 50)

    def interrupted(self, n: int, db: Database, changes: List[Any]) -> bool:
        """Interrupts at the nth line of the client; answers whether there were fewer."""
        left = [n]

        def trace(frame: Any, event: str, _: Any) -> Any:
            if event == "line" and "mi_client" in frame.f_code.co_filename:
                left[0] -= 1
                if left[0] == 0:
                    raise KeyboardInterrupt
            return trace

        sys.settrace(trace)
        try:
            db.atomically(changes)
        except (KeyboardInterrupt, Refused):
            pass
        finally:
            sys.settrace(None)
        return left[0] > 0


class OnAServer(unittest.TestCase):
    def setUp(self) -> None:
        self.db = self.opened()
        self.addCleanup(self.db.close)

    def opened(self) -> Database:
        return kit.start(self)

    def test_all_are_done(self) -> None:
        done = self.db.atomically([calls.insert(ANN), calls.insert(BOB), calls.modify(0, add={"balance": 1}), calls.get(0), calls.erase(1)])
        self.assertEqual(done, [0, 1, None, {"id": 0, **ANN, "balance": 51}, None])
        self.assertEqual((self.db.size(), self.db.revision()), (1, (0, 0, 0)))
        self.assertEqual(self.db.atomically(inserts(300)), list(range(2, 302)))
        self.assertEqual(self.db.atomically(calls.erase(it) for it in range(2, 302)), [None] * 300)
        self.assertEqual((self.db.size(), self.db.revision()), (1, (0, 0, 0)))

    def test_none_is_done(self) -> None:
        self.db.atomically([calls.insert(ANN), calls.insert(BOB)])
        with self.assertRaises(Refused) as caught:
            self.db.atomically([calls.erase(0), calls.insert(CID), calls.insert(BOB), calls.get(7)])
        refusal = caught.exception
        self.assertEqual((refusal.change, refusal.word, refusal.id, refusal.index), (2, "unique", 1, "by_owner"))
        self.assertEqual(str(refusal), "change 2: unique: record 1 has this key in by_owner")
        self.assertEqual((pickle.loads(pickle.dumps(refusal)).change, str(pickle.loads(pickle.dumps(refusal)))), (2, str(refusal)))
        with self.assertRaisesRegex(Refused, "^change 1: row: balance is a float; int wanted$"):
            self.db.atomically([calls.erase(0), calls.modify(1, set={"balance": 0.5})])
        with self.assertRaisesRegex(Refused, "^change 0: id: there is no record 7$"):
            self.db.atomically([calls.get(7), calls.erase(0)])
        with self.assertRaisesRegex(Refused, "^change 299: unique"):
            self.db.atomically([*inserts(299), calls.insert(ANN)])
        self.assertEqual(([self.db.get(it) for it in (0, 1)], self.db.size()), ([{"id": 0, **ANN}, {"id": 1, **BOB}], 2))
        self.assertEqual(self.db.revision(), (0, 0, 0))

    def test_a_record_that_was_lost_is_back(self) -> None:
        self.db.atomically([calls.insert(ANN), calls.insert(BOB)])
        with self.assertRaises(Refused) as caught:
            self.db.atomically([calls.modify(1, set={"owner": "ann"}, rollback=False), calls.insert(CID)])
        self.assertEqual((caught.exception.change, caught.exception.lost), (0, False))
        self.assertEqual((self.db.get(1), self.db.size()), ({"id": 1, **BOB}, 2))

    def test_in_a_session_and_beside_lines_ahead(self) -> None:
        with self.assertRaises(KeyError), self.db.session():
            self.db.atomically([calls.insert(ANN)])
            with self.assertRaises(Refused):
                self.db.atomically([calls.insert(BOB), calls.insert(BOB)])
            self.assertEqual((self.db.size(), self.db.revision()), (1, (1, 1, 1)))
            raise KeyError
        with self.db.pipeline() as ahead:
            first = ahead.insert(ANN)
            self.assertEqual(self.db.atomically([calls.insert(BOB), calls.size()]), [1, 2])
            self.assertTrue(first.is_there())
            ahead.erase(0)
        self.assertEqual((self.db.size(), self.db.revision()), (1, (0, 0, 0)))


@test_embedded.needs_library
class InTheProcess(OnAServer):
    def opened(self) -> Database:
        return Embedded.open()


class Sharing(unittest.TestCase):
    def test_threads(self) -> None:
        """What one does isn't undone with what another is refused."""
        db, wrong = kit.start(self), []

        def work(n: int) -> None:
            for turn in range(20):
                row = {"owner": f"{n} {turn}", "balance": n, "vip": False}
                try:
                    db.insert({**row, "owner": f"{n} {turn} alone"})
                    db.atomically([calls.insert(row), *[calls.insert(row)] * (turn % 2)])
                    wrong.extend([n] * (turn % 2))
                except Refused as refusal:
                    wrong.extend([n] * (refusal.change != 1 or turn % 2 == 0))

        threads = [threading.Thread(target=work, args=(n,)) for n in range(6)]
        for it in threads:
            it.start()
        for it in threads:
            it.join(60)
        self.assertEqual((wrong, db.size(), db.revision()), ([], 6 * 30, (0, 0, 0)))

    def test_while_another_connection_holds_a_session(self) -> None:
        with Server(kit.program(), clients=2) as server, server.connect(20) as first, server.connect(20) as second:
            first.begin()
            with self.assertRaises(Refused) as caught:
                second.atomically([calls.insert(ANN), calls.insert(BOB)])
            self.assertEqual((caught.exception.word, caught.exception.change), ("busy", None))
            first.undo()
            self.assertEqual(second.size(), 0)

    def test_at_the_greatest_depth(self) -> None:
        db = kit.start(self)
        with db.pipeline() as ahead:
            for _ in range(1024):
                ahead.begin()
        with self.assertRaisesRegex(Ended, "^the session was refused as depth, and a change behind it was done outside of one$"):
            db.atomically([calls.insert(ANN)])
        self.assertFalse(db.is_open)


if __name__ == "__main__":
    unittest.main()
