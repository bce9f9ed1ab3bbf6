"""The client over a database of its own process, where the library is built: every call that the tests of a connection make, several
connections, and who may use it. The library is the one that WELTIYO_LIBRARY names, else that of `make lib`. What a connection that is closed
in the middle of a call leaves is tried without it too, over one that stands in for it."""
import ctypes
import gc
import os
import subprocess
import sys
import threading
import unittest

import kit
import test_client
from kit import ANN, BOB

from mi_client import Embedded, Ended, Refused


def library():
    """The file of the library, or none where none is built."""
    if "WELTIYO_LIBRARY" not in os.environ:
        words = [sys.executable, f"{kit.TOP}/scripts/library.py", "path"]
        folder = subprocess.run(words, capture_output=True, text=True).stdout.strip()
        os.environ["WELTIYO_LIBRARY"] = f"{folder}/libweltiyo.so" if folder else ""
    return os.environ["WELTIYO_LIBRARY"]


needs_library = unittest.skipUnless(library(), "no library is built: `make lib` makes it")


def on_a_thread(work):
    thread = threading.Thread(target=work)
    thread.start()
    thread.join()


def asking(opened, said):
    """A call of the first of these databases, whose refusal is kept."""

    def work():
        try:
            opened[0].size()
        except RuntimeError as error:
            said.append(str(error))

    return work


@needs_library
class InTheProcess(test_client.Commands, unittest.TestCase):
    def setUp(self):
        self.db = Embedded.open()
        self.addCleanup(self.db.close)

    def test_lines_and_calls_sent_ahead(self):
        lines = [b'{"cmd":"insert","row":{"owner":"%d","balance":%d,"vip":false}}' % (n, n) for n in range(5000)]
        replies = list(self.db.ask_lines(lines, window=7))
        self.assertEqual((len(replies), replies[-1]), (5000, '{"id":4999,"ok":true}'))
        with self.db.pipeline() as ahead:
            answers = [ahead.get(n) for n in range(3)]
        self.assertEqual([it.result()["owner"] for it in answers], ["0", "1", "2"])

    def test_replies_longer_than_what_is_fetched_at_once(self):
        for n in range(20):
            self.db.insert({"owner": str(n) * 500, "balance": n, "vip": False})
        rows = self.db.range("by_balance").rows
        self.assertEqual([(it["id"], it["owner"]) for it in rows], [(n, str(n) * 500) for n in range(20)])


@needs_library
class Walks(test_client.Walks):
    def setUp(self):
        self.db = Embedded.open(kit.written(self, test_client.MANY))
        self.addCleanup(self.db.close)
        self.ids = [self.db.insert({"group": n // 4, "name": str(n)}) for n in range(40)]


@needs_library
class Several(unittest.TestCase):
    def test_connections_hold_each_their_own(self):
        first = Embedded.open()
        second = first.another()
        self.assertEqual(first.begin(), 1)
        with self.assertRaises(Refused) as caught:
            second.insert(BOB)
        self.assertEqual(caught.exception.word, "busy")
        first.insert(ANN)
        self.assertEqual(second.get(0)["owner"], "ann")
        self.assertEqual((second.revision(), first.revision().held), ((1, 1, 0), 1))
        first.close()  # what it held is undone
        self.assertEqual((second.size(), second.insert(BOB)), (0, 0))
        self.assertRaises(Ended, first.another)
        second.close()
        self.assertRaises(Ended, second.size)

    def test_one_that_is_forgotten_holds_nothing(self):
        with Embedded.open() as db:
            gone = [db.another()]
            for forget in (gone.clear, lambda: on_a_thread(gone.clear)):
                gone[0].begin()
                gone[0].insert(BOB)
                self.assertRaises(Refused, db.insert, ANN)
                forget()
                gc.collect()
                self.assertEqual((db.size(), db.revision()), (0, (0, 0, 0)))
                gone.append(db.another())

    def test_a_call_in_the_middle_of_another(self):
        """As a signal handler or a finalizer makes it, on any connection to the same tables."""
        said = []

        class Interrupted:
            def __getattr__(self, name):
                return getattr(calls, name)

            def weltiyo_ask(self, *words):
                engine._calls = calls
                for it in (db, other):
                    try:
                        it.size()
                    except RuntimeError as error:
                        said.append(str(error).partition(":")[0])
                gone.close()
                return calls.weltiyo_ask(*words)

        with Embedded.open() as db, db.another() as other, db.another() as gone:
            engine, calls = db._lines.engine, db._lines.engine._calls
            gone.begin()
            engine._calls = Interrupted()
            self.assertEqual(db.revision().depth, 1)
            self.assertEqual(said, ["the connection is in the middle of a call"] * 2)
            self.assertEqual((db.revision().depth, other.size()), (0, 0))

    def test_a_block_ends_its_own_session_alone(self):
        """Not the one below where its own has ended, nor one that was pushed above it."""
        for step in ("undo", "squash", "push"):
            with Embedded.open() as db:
                db.begin()
                db.push()
                with db.session():
                    getattr(db, step)()
                    left = db.revision().depth
                self.assertEqual(db.revision().depth, left)
                with self.assertRaises(ZeroDivisionError), db.session():
                    db.begin()
                    db.push()
                    db.insert(ANN)
                    raise ZeroDivisionError
                self.assertEqual((db.revision().depth, db.size()), (left + 2, 1))

    def test_databases_know_nothing_of_each_other(self):
        with Embedded.open() as one, Embedded.open(f"{kit.TOP}/examples/shop.toml") as two:
            one.insert(ANN)
            self.assertNotEqual(one.schema, two.schema)
            self.assertEqual(two.size(), 0)

    def test_schemas(self):
        for text, word in [("table = 1\n", "shape"), ("table = ", "toml"), ("", "shape"), (" " * 65_537, "file")]:
            with self.assertRaisesRegex(Ended, f"^schema: {word}$"):
                Embedded.open(kit.written(self, text))
        with self.assertRaisesRegex(Ended, "^schema: file$"):
            Embedded.open("/no/such/file")
        with self.assertRaises(OSError):
            Embedded.open(library_file="/no/such/library")
        self.assertRaises(TypeError, Embedded.start, "mi_server")
        self.assertRaises(TypeError, Embedded.connect, 8000)


@needs_library
class Home(unittest.TestCase):
    """A handle stays on its thread and in its process."""

    def test_another_thread_is_turned_away(self):
        said = []

        def work():
            for call in (db.size, db.close, db.another, db.pass_turn):
                try:
                    call()
                except RuntimeError as error:
                    said.append(str(error))

        with Embedded.open() as db:
            thread = threading.Thread(target=work)
            thread.start()
            thread.join()
            self.assertEqual(said, ["a database in the process stays on the thread that opened it"] * 4)
            self.assertEqual(db.size(), 0)

    def test_a_thread_with_the_number_of_one_that_has_ended(self):
        opened, said = [], []
        on_a_thread(lambda: opened.append(Embedded.open()))
        for _ in range(10):
            on_a_thread(asking(opened, said))
        self.assertEqual(said, ["a database in the process stays on the thread that opened it"] * 10)

    def test_a_child_leaves_it_to_its_parent(self):
        with Embedded.open() as db:
            child = os.fork()
            if not child:
                try:
                    db.size()
                except Ended:
                    os._exit(7)
                os._exit(1)
            self.assertEqual(os.waitstatus_to_exitcode(os.waitpid(child, 0)[1]), 7)
            self.assertEqual(db.insert(ANN), 0)

    def test_one_that_is_forgotten_is_closed(self):
        closed = []

        class Watched:
            def __getattr__(self, name):
                return getattr(calls, name)

            def weltiyo_close(self, handle):
                closed.append(handle.value)
                calls.weltiyo_close(handle)

        db = Embedded.open()
        engine, calls = db._lines.engine, db._lines.engine._calls
        engine._calls, handle = Watched(), engine._handle.value
        del db, engine
        gc.collect()
        self.assertEqual(closed, [handle])


class Watched:
    """The library's calls, each of which is to get a handle that is open, on its thread."""

    def __init__(self, calls):
        self._calls, self._home, self.closed = calls, threading.get_native_id(), []

    def __getattr__(self, name):
        def call(handle, *words):
            if not handle or handle.value in self.closed or threading.get_native_id() != self._home:
                raise AssertionError(f"{name} gets a handle that isn't open here")
            self.closed += [handle.value] * (name == "weltiyo_close")
            return getattr(self._calls, name)(handle, *words)

        return call


class InTheMiddle:
    """A block ahead of whose line of this number, of those of the client that it runs through, something is done, as by a signal handler."""

    def __init__(self, number, done):
        self._left, self._done = number, done

    def __enter__(self):
        sys.settrace(self._trace)
        return self

    def __exit__(self, *_):
        sys.settrace(None)

    def _trace(self, frame, event, _):
        if event == "line" and os.path.basename(os.path.dirname(frame.f_code.co_filename)) == "mi_client":
            self._left -= 1
            if not self._left:
                self._done()
        return self._trace

    def is_over(self):
        """Whether the block had fewer lines."""
        return self._left > 0


class Closing(unittest.TestCase):
    def setUp(self):
        # (skips the test here, on its own thread, where there is neither a library nor a compiler)
        self.library = library() or f"{kit.stand_in()}/libweltiyo.so"

    def opened(self):
        """A connection, another one to the same tables, and the calls that they make."""
        db = Embedded.open(library_file=self.library)
        engine = db._lines.engine
        engine._calls = Watched(engine._calls)
        return db, db.another(), engine._calls

    def at_each_line(self, closed_at):
        number = 1
        while not closed_at(number):
            number += 1
        self.assertGreater(number, 20)

    def test_in_the_middle_of_its_own_call(self):
        """It is answered or ends, holds nothing behind that, and the last one closes the tables."""
        for is_last in (False, True):

            def closed_at(number):
                db, other, calls = self.opened()
                if is_last:
                    other.close()
                try:
                    with InTheMiddle(number, db.close) as middle:
                        self.assertEqual(db.begin(), 1)
                except Ended as error:
                    self.assertEqual(str(error), "the connection is closed")
                if middle.is_over():
                    db.close()
                self.assertFalse(db.is_open)
                if not is_last:
                    self.assertEqual(other.revision(), (0, 0, 0))
                    other.close()
                self.assertEqual(len(calls.closed), 1)
                return middle.is_over()

            with self.subTest(is_last=is_last):
                self.at_each_line(closed_at)

    def test_in_the_middle_of_lines_sent_ahead(self):
        def closed_at(number):
            db, other, calls = self.opened()
            try:
                with InTheMiddle(number, db.close) as middle:
                    self.assertEqual(len(list(db.ask_lines(['{"cmd":"start"}'] * 3))), 3)
            except Ended:
                pass
            if middle.is_over():
                db.close()
            self.assertEqual(other.revision(), (0, 0, 0))
            other.close()
            self.assertEqual(len(calls.closed), 1)
            return middle.is_over()

        self.at_each_line(closed_at)

    def test_in_the_middle_of_another_that_closes(self):
        def closed_at(number):
            db, other, calls = self.opened()
            other.begin()
            with InTheMiddle(number, other.close) as middle:
                db.close()
            other.close()
            self.assertEqual(len(calls.closed), 1)
            return middle.is_over()

        self.at_each_line(closed_at)

    def test_a_thread_that_c_made_with_the_number_of_another(self):
        opened, said = [], []
        on_a_thread_of_c(lambda: opened.extend(self.opened()))
        on_a_thread_of_c(asking(opened, said))
        self.assertEqual(said, ["a database in the process stays on the thread that opened it"])
        with self.assertWarns(ResourceWarning):
            opened.clear()
            gc.collect()

    def test_the_last_reference_goes_on_another_thread(self):
        opened = []
        on_a_thread(lambda: opened.extend(self.opened()))
        calls = opened[2]
        with self.assertWarnsRegex(ResourceWarning, "^a database in the process is never freed"):
            opened.clear()
            gc.collect()
        self.assertEqual(calls.closed, [])


def on_a_thread_of_c(work):
    """Runs on a thread that Python didn't start, and waits for its end."""
    calls, thread = ctypes.CDLL(None), ctypes.c_ulong()
    begin = ctypes.CFUNCTYPE(None, ctypes.c_void_p)(lambda _: work())
    calls.pthread_join.argtypes = (ctypes.c_ulong, ctypes.c_void_p)
    calls.pthread_create(ctypes.byref(thread), None, begin, None)
    calls.pthread_join(thread, None)


if __name__ == "__main__":
    unittest.main()
