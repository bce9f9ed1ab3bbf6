"""A ledger's log in etcd where requests are done late, and where etcd isn't the one that it was: a fake one, and etcd itself where it is installed."""
import asyncio
import contextlib
import io
import socket
import unittest
from typing import Any, Awaitable, Callable, List, Tuple
from unittest import mock

import kit  # noqa: F401 (which finds the members)
from fake_etcd import FakeEtcd, Way, etcds
from mi_replica import cli
from mi_replica.clients import Clients
from mi_replica.etcd import Unreachable, behind, deleted, put
from mi_replica.following import Behind, Following
from mi_replica.front import Entry, Front
from mi_replica.leading import PARTS
from mi_replica.log import AGAIN_SECONDS, Log, Lost, OtherLedger, Snapshot, Term
from one_etcd import OneEtcd, needs_etcd

NOWHERE = "http://127.0.0.1:1"
ME = {"address": "one", "once": "1"}


class Own:
    """A server that does every line."""

    async def ask(self, lines: List[bytes]) -> List[bytes]:
        return [b'{"id":0,"ok":true}'] * len(lines)


async def caught_up(log: Log, front: Front, had: Front) -> Front:
    """Where a member is that has the log up to here and has read on; it had it up to `had`."""
    following = Following(Own(), log, Clients(), front, had)  # type: ignore[arg-type]
    await following.catch_up()
    return following.front


async def again(log: Log, number: int) -> Snapshot:
    """What the log has behind this entry, once etcd is there again."""
    while True:
        try:
            return await log.read(number)
        except Unreachable:
            await asyncio.sleep(AGAIN_SECONDS)


async def appended(log: Log, term: Term, front: Front, what: str, count: int) -> List[Front]:
    """How far the log goes behind so many more entries, and behind each before."""
    fronts = [front]
    for n in range(count):
        fronts.append(await log.append(fronts[-1], b"%s %d\n" % (what.encode(), n + 1), term))
    return fronts


class Late:
    """What holds of any etcd; a ledger each."""

    def log(self) -> Log:
        raise NotImplementedError

    def play(self, act: Callable[[Log, Way, Term], Awaitable[None]]) -> None:
        """With a log of 20 entries, the way to etcd, and the term of one who leads."""
        async def played() -> None:
            log = self.log()
            way = Way(log)
            await log.agree("schema")
            term = await log.elect(ME, 10, 0.5)
            assert term
            self.fronts = await appended(log, term, log.begin(), "entry", 20)
            await act(log, way, term)
            await log.resign(term)
            log.close()
            await asyncio.sleep(0.01)

        asyncio.run(asyncio.wait_for(played(), 60))

    def test_the_beginning_of_the_log_is_never_turned_back(self: Any) -> None:
        async def act(log: Log, way: Way, term: Term) -> None:
            way.holds = 1
            await log.forget(9, term)
            await log.forget(20, term)
            self.assertFalse(await way.late())
            self.assertEqual((await log.read(20)).first, 21)
            with self.assertRaises(Behind):  # (it was away, and may not take a log without entries for the whole)
                await caught_up(log, self.fronts[12], self.fronts[12])

        self.play(act)

    def test_entries_leave_by_a_request_that_had_no_answer(self: Any) -> None:
        async def act(log: Log, way: Way, term: Term) -> None:
            for number, done_late in ((9, True), (9, False), (5, False), (10, True)):
                way.holds = 1
                asked = asyncio.ensure_future(log.forget(number, term))
                await asyncio.sleep(0.02)
                self.assertEqual(await way.late(), done_late)
                await asked
            self.assertEqual([it.number for it in (await log.read(0)).entries][:1], [11])

        self.play(act)

    def test_a_late_prolongation_is_refused(self: Any) -> None:
        async def act(log: Log, way: Way, term: Term) -> None:
            await log.prolong(term)
            way.holds = 2
            for _ in range(2):
                with self.assertRaises(Unreachable):
                    await log.prolong(term)
            await log.prolong(term)
            self.assertEqual([await way.late(), await way.late()], [False, False])
            await log.prolong(term)

        self.play(act)

    def test_one_that_was_done_without_an_answer_is_gone_on_from(self: Any) -> None:
        async def act(log: Log, way: Way, term: Term) -> None:
            way.holds = 3
            for _ in range(3):
                with self.assertRaises(Unreachable):
                    await log.prolong(term)
            self.assertTrue(await way.late())
            self.assertFalse(await way.late())
            await log.prolong(term)
            self.assertFalse(await way.late())
            self.assertTrue(term.holds())
            await log.resign(term)
            with self.assertRaises(Lost):
                await log.prolong(term)

        self.play(act)

    def test_an_election_without_an_answer_is_known_again(self: Any) -> None:
        async def act(log: Log, way: Way, term: Term) -> None:
            await log.resign(term)
            way.holds = 1
            with self.assertRaises(Unreachable):
                await log.elect(ME, 10, 0.5)
            self.assertTrue(await way.late())
            found = await log.elect(ME, 10, 0.5)
            assert found
            self.assertFalse(found.holds())
            await log.prolong(found)
            self.assertTrue(found.holds())
            self.assertIsNone(await log.elect({**ME, "once": "2"}, 10, 0.5))
            await log.resign(found)

        self.play(act)

    async def put_back(self: Any, log: Log, number: int) -> None:
        """Etcd has the log up to this entry alone, as where its data was put back."""
        lost, front = deleted(log._key(number + 1), behind(log._entries)), put(log._front, self.fronts[number].written())
        await log._reading.post("/v3/kv/txn", {"success": [lost, front]})

    def test_each_entry_says_what_it_stands_on(self: Any) -> None:
        async def act(log: Log, way: Way, term: Term) -> None:
            found = await log.read(0, 3)
            self.assertEqual(found.entries, [Entry(n, self.fronts[n - 1].sum, b"entry %d\n" % n) for n in (1, 2, 3)])
            self.assertEqual((found.front, len({it.sum for it in self.fronts})), (self.fronts[20], 21))
            self.assertEqual([Front.read(it.written()) for it in self.fronts], self.fronts)

        self.play(act)

    def test_a_log_that_ends_before_what_a_member_has(self: Any) -> None:
        async def act(log: Log, way: Way, term: Term) -> None:
            fronts = self.fronts
            more = fronts[20].with_entry(b"lost\n")
            self.assertEqual([await caught_up(log, fronts[it], fronts[20]) for it in (0, 7, 20)], [fronts[20]] * 3)
            for has in (more, fronts[0], fronts[20]):
                with self.assertRaisesRegex(OtherLedger, "ends before entry 21,"):
                    await caught_up(log, has, more)
            await log.forget(20, term)
            self.assertEqual(await caught_up(log, fronts[20], fronts[20]), fronts[20])
            with self.assertRaisesRegex(OtherLedger, "ends before entry 21,"):
                await caught_up(log, more, more)

        self.play(act)

    def test_a_log_that_was_put_back_and_has_others(self: Any) -> None:
        """As many as a member has had, and more. Whoever goes on with it has none of the lost ones."""
        async def act(log: Log, way: Way, term: Term) -> None:
            fronts = self.fronts
            await self.put_back(log, 15)
            with self.assertRaises(Lost):
                await log.append(fronts[20], b"on\n", term)
            for count in (5, 1):
                others = await appended(log, term, (await log.read(15)).front, "other", count)
                for has, had in ((20, 20), (15, 20), (0, 20), (17, 17), (17, 20)):
                    with self.assertRaisesRegex(OtherLedger, "it has other entries"):
                        await caught_up(log, fronts[has], fronts[had])
            with self.assertRaisesRegex(OtherLedger, "up to entry 20 it has other entries"):
                await caught_up(log, others[0], fronts[20])
            for has in (0, 15):
                self.assertEqual(await caught_up(log, fronts[has], fronts[15]), others[-1])
            stand = [await log.has(it) for it in (*fronts, *others, others[-1].with_entry(b"more\n"))]
            self.assertEqual(stand, [True] * 16 + [False] * 5 + [True] * 2 + [False])
            await log.forget(18, term)
            self.assertEqual([await log.has(it) for it in (fronts[17], fronts[18], others[0], others[1])], [False, False, True, True])

        self.play(act)


class InFake(Late, unittest.TestCase):
    def setUp(self) -> None:
        self.etcd = FakeEtcd()

    def log(self) -> Log:
        made = Log([NOWHERE], "led")
        self.etcd.serve(*etcds(made))
        return made

    def test_no_other_leads_while_a_term_holds(self) -> None:
        """A prolongation of 1.2 is done at each moment behind 3.3, when another one of then was answered."""
        async def played(at: float) -> Tuple[bool, bool]:
            one, other, now = self.log(), self.log(), 0.0
            with mock.patch("mi_replica.log.clock", lambda: now):
                way = Way(one)
                await one.agree("schema")
                term = await one.elect(ME, 3, 0.5)
                assert term
                now = 0.6
                await one.prolong(term)
                now, way.holds = 1.2, 1
                with self.assertRaises(Unreachable):
                    await one.prolong(term)
                now = 3.3
                await one.prolong(term)
                now = at
                is_done = await way.late()
                now = 4.3  # (behind the end of the lease of 1.2)
                return is_done, bool(await other.elect({**ME, "once": "2"}, 3, 0.5)) and term.holds()

        for at in (3.3, 3.7, 4.15):
            self.etcd.wipe()
            self.assertEqual(asyncio.run(played(at)), (False, False), at)

    def test_a_ledger_that_took_the_place_of_another(self) -> None:
        """Whose terms may have the numbers of the one before."""
        async def played() -> None:
            old, new = self.log(), self.log()
            await old.agree("schema")
            term = await old.elect(ME, 10, 0.5)
            assert term
            before = await appended(old, term, old.begin(), "old", 3)
            self.etcd.wipe()
            await new.agree("schema")
            again = await new.elect({**ME, "address": "two"}, 10, 0.5)
            assert again
            self.assertEqual((again.number, old.identity == new.identity), (term.number, False))
            fronts = await appended(new, again, new.begin(), "new", 5)
            with self.assertRaises(OtherLedger):
                await caught_up(old, before[3], before[3])
            for refused in (old.append(before[3], b"old 4\n", term), old.prolong(term), old.forget(3, term)):
                with self.assertRaises(Lost):
                    await refused
            await old.say("one", {"checkpoint": 3}, 0)
            await old.resign(term)
            self.assertEqual(await new.members(), {})
            self.assertEqual(((await new.read(0)).leader or (0,))[0], again.number)
            self.assertEqual(await caught_up(new, new.begin(), new.begin()), fronts[5])

        asyncio.run(asyncio.wait_for(played(), 60))

    def test_one_of_an_earlier_form_is_refused(self) -> None:
        async def played() -> None:
            log = self.log()
            self.assertEqual(await log.agree("schema"), "schema")
            self.assertEqual(await self.log().agree("another"), "schema")
            for key in (b"led/front", b"led/identity"):
                kept = self.etcd.keys.pop(key)
                with self.assertRaisesRegex(OtherLedger, "another name"):
                    await self.log().agree("schema")
                self.etcd.keys[key] = kept

        asyncio.run(played())


class Status(unittest.TestCase):
    def test_how_the_log_stands(self) -> None:
        etcd = FakeEtcd()

        def made(urls: List[str], name: str) -> Log:
            log = Log(urls, name)
            etcd.serve(*etcds(log))
            return log

        async def told() -> str:
            out = io.StringIO()
            with mock.patch("mi_replica.cli.Log", made), contextlib.redirect_stdout(out):
                await cli.status(cli.parser().parse_args(["--etcd", NOWHERE, "--name", "led", "--status"]))
            return out.getvalue().splitlines()[1].strip()

        async def played() -> None:
            log = made([NOWHERE], "led")
            self.assertEqual(await told(), "the log is empty")
            await log.agree("schema")
            self.assertEqual(await told(), "the log is empty")
            term = await log.elect(ME, 10, 0.5)
            assert term
            await appended(log, term, log.begin(), "entry", 2)
            self.assertEqual(await told(), "the log has the entries 1 to 2")
            await log.forget(2, term)
            self.assertEqual(await told(), "the log has none of its 2 entries any more")

        asyncio.run(played())


@needs_etcd
class InEtcd(Late, unittest.TestCase):
    """The same, of etcd itself: so it is as the fake one has it."""

    @classmethod
    def setUpClass(cls) -> None:
        cls.count, cls.etcd = 0, OneEtcd()

    @classmethod
    def tearDownClass(cls) -> None:
        cls.etcd.close()

    def log(self, *others: str) -> Log:
        type(self).count += 1
        return Log([*others, self.etcd.url], f"led{self.count}")

    def test_a_term_outlasts_a_member_that_stands_still(self) -> None:
        """Which takes requests and answers none."""
        async def played(seconds: int, still: str) -> None:
            log = self.log(still)
            log._reading.turn()
            await log.agree("schema")
            with self.assertRaises(Unreachable):
                await log.elect(ME, seconds, 0.5)
            term = await log.elect(ME, seconds, 0.5)
            assert term
            await asyncio.sleep(seconds / PARTS)
            log._electing.turn()
            with self.assertRaises(Unreachable):
                await log.prolong(term)
            await asyncio.sleep(AGAIN_SECONDS)
            self.assertTrue(term.holds())
            await log.prolong(term)
            await log.resign(term)
            log.close()

        with socket.create_server(("127.0.0.1", 0)) as it:
            for seconds in (2, 3):
                asyncio.run(asyncio.wait_for(played(seconds, f"http://127.0.0.1:{it.getsockname()[1]}"), 60))


@needs_etcd
class PutBack(unittest.TestCase):
    def test_etcd_that_begins_with_data_of_before(self) -> None:
        """And gets other entries, as many as it has lost: a member that has those finds it, one of before doesn't."""
        async def played(etcd: OneEtcd) -> None:
            log = Log([etcd.url], "led")
            await log.agree("schema")
            term = await log.elect(ME, 60, 0.5)
            assert term
            fronts = await appended(log, term, log.begin(), "entry", 3)
            etcd.save()
            lost = await appended(log, term, fronts[3], "lost", 2)
            etcd.put_back()
            self.assertEqual((await again(log, 0)).front, fronts[3])
            with self.assertRaisesRegex(OtherLedger, "ends before entry 5"):
                await caught_up(log, lost[2], lost[2])
            with self.assertRaises(Lost):
                await log.append(lost[2], b"lost 3\n", term)
            others = await appended(log, term, fronts[3], "other", 2)
            for has in (lost[2], fronts[1]):
                with self.assertRaisesRegex(OtherLedger, "up to entry 5 it has other entries"):
                    await caught_up(log, has, lost[2])
            self.assertEqual(await caught_up(log, fronts[1], fronts[3]), others[2])
            log.close()

        etcd = OneEtcd()
        try:
            asyncio.run(asyncio.wait_for(played(etcd), 120))
        finally:
            etcd.close()


if __name__ == "__main__":
    unittest.main()
