"""Who leads a ledger, as `--status` says: a member whose key is there and that answers."""
import asyncio
import contextlib
import io
import json
import re
import socket
import unittest
from typing import List, Tuple
from unittest import mock

import kit  # noqa: F401 (which finds the members)
from fake_etcd import FakeEtcd, etcds
from mi_replica import cli
from mi_replica.etcd import no_answer
from mi_replica.log import Log

NOWHERE = "http://127.0.0.1:1"


class WhoLeads(unittest.TestCase):
    def test_a_member_that_is_gone_is_no_leader(self) -> None:
        """Its key and what it said of itself last until their leases end. The one that has the key and answers as its leader leads."""
        etcd = FakeEtcd()

        def made(urls: List[str], name: str) -> Log:
            log = Log(urls, name)
            etcd.serve(*etcds(log))
            return log

        async def told() -> Tuple[int, str]:
            out = io.StringIO()
            with mock.patch("mi_replica.cli.Log", made), mock.patch("mi_replica.cli.ANSWER_SECONDS", 0.2), contextlib.redirect_stdout(out):
                status = await cli.status(cli.parser().parse_args(["--etcd", NOWHERE, "--name", "led", "--status"]))
            return status, out.getvalue()

        async def played() -> None:
            says = {"role": "leader", "term": 0}

            async def answered(reader: asyncio.StreamReader, writer: asyncio.StreamWriter) -> None:
                await reader.readline()
                if says:
                    writer.write(json.dumps(says).encode() + b"\n")
                else:
                    await reader.read()
                writer.close()

            log = made([NOWHERE], "led")
            await log.agree("schema")
            server = await asyncio.start_server(answered, "127.0.0.1", 0)
            new = f"127.0.0.1:{server.sockets[0].getsockname()[1]}"
            for it in ("127.0.0.1:1", new):
                await log.say(it, {"address": it, "role": "leader", "applied": 7, "checkpoint": 0}, 0)
            gone = await log.elect({"address": "127.0.0.1:1"}, 10, 0.5)
            assert gone
            nobody = f"led: nobody leads: 127.0.0.1:1 has term {gone.number}, and doesn't answer as its leader"
            status, text = await told()
            self.assertEqual((status, text.splitlines()[0], len(re.findall(" no leader ", text))), (1, nobody, 2), text)
            await log.resign(gone)
            term = await log.elect({"address": new}, 10, 0.5)
            assert term
            for said in ({"role": "leader", "term": term.number - 1}, {"role": "follower", "term": term.number}, {}):
                says.clear()
                says.update(said)
                self.assertEqual((await told())[0], 1, said)
            says.update({"role": "leader", "term": term.number})
            status, text = await told()
            self.assertEqual((status, text.splitlines()[0]), (0, f"led: {new} leads in term {term.number}"))
            self.assertRegex(text, "  127.0.0.1:1 +no leader applied 7 ")
            self.assertRegex(text, f"  {new} +leader    applied 7 ")
            server.close()
            await asyncio.sleep(0.02)

        asyncio.run(played())

    def test_an_etcd_that_is_dead(self) -> None:
        """Each address that was asked is told, in words."""
        said = io.StringIO()
        with contextlib.redirect_stderr(said):
            self.assertEqual(cli.main(["--etcd", f"{NOWHERE},http://localhost:1,{NOWHERE}", "--name", "led", "--status"]), 4)
        refused = [f"etcd: {it}:1 refused the connection: nothing listens there" for it in ("127.0.0.1", "localhost")]
        self.assertEqual(said.getvalue(), f"mi_replica: {'; '.join(refused)}\n")

    def test_why_etcd_gives_no_answer(self) -> None:
        for error, said in [
            (ConnectionRefusedError(111, "Connect call failed ('127.0.0.1', 1)"), "a:1 refused the connection: nothing listens there"),
            (OSError("Multiple exceptions: [Errno 111] Connect call failed, [Errno 113] Connect call failed"), "a:1: Multiple exceptions: .*"),
            (OSError(113, "Connect call failed ('10.0.0.1', 1)"), "a:1: No route to host"),
            (socket.gaierror(-2, "Name or service not known"), "a:1: Name or service not known"),
            (asyncio.TimeoutError(), "a:1 gave no answer in time"), (asyncio.IncompleteReadError(b"", 5), "a:1 ended the connection"),
            (ValueError("no JSON"), "a:1: no JSON"),
        ]:
            self.assertRegex(no_answer(error, "a", 1), f"^etcd: {said}$")
        self.assertEqual(no_answer(asyncio.TimeoutError(), "::1", 5), "etcd: [::1]:5 gave no answer in time")

    def test_nobody_reads_on(self) -> None:
        said = io.StringIO()
        gone = mock.AsyncMock(side_effect=BrokenPipeError)
        with mock.patch("mi_replica.cli.status", gone), mock.patch("mi_replica.cli.broken_pipe", lambda: 141), contextlib.redirect_stderr(said):
            self.assertEqual((cli.main(["--etcd", NOWHERE, "--name", "led", "--status"]), said.getvalue()), (141, ""))

    def test_no_program(self) -> None:
        """It is told as that, whatever the ledger's schema is."""
        for name in ("/no/such/program", "/no/mi_service"):
            said = io.StringIO()
            with contextlib.redirect_stderr(said):
                self.assertEqual(cli.main(["--etcd", NOWHERE, "--name", "led", "--listen", "1", "--program", name]), 4)
            self.assertEqual(said.getvalue(), f"mi_replica: there is no program {name}: name it by --program FILE or the variable MI_SERVICE\n")


if __name__ == "__main__":
    unittest.main()
