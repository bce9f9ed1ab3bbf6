"""The prompt: commands in a short form or as JSON, with history, completion and help; replies as tables or as lines."""
from __future__ import annotations

import argparse
import contextlib
import json
import os
import sys
import time
from typing import Callable, List, Optional

from mi_client import Database, Ended, NeedsSchema, Refused, TooManyEqual, explain
from mi_client.commands import COMMANDS, REFUSALS
from mi_tools import show
from mi_tools.completion import completions
from mi_tools.opening import add_server, opened, why
from mi_tools.paging import Behind, is_longer_than_screen, through_pager
from mi_tools.shorthand import FORMS, line_of

HISTORY = os.path.expanduser("~/.mi_client_history")

NEXT = " (Enter shows them)"
NO_SCHEMA = "the schema isn't known: start the prompt with --schema FILE, or connect to a service, which tells it"
WELCOME = "help lists the commands, help COMMAND shows one, Tab completes, Ctrl-D ends"

KEYS = """    \\c         connects again
    \\d         the tables, their columns and indexes
    \\i FILE    runs the lines of a file
    \\n         the next page of a range or a list; at a terminal Enter alone does so too
    \\t         tells or hides how long commands take
    \\x         shows replies as tables, or as the lines that came
    quit       ends"""


def help_of(word: str) -> str:
    """The help for a command or for the word of a refusal; of all commands where the word is empty."""
    if not word:
        width = max(map(len, COMMANDS))
        commands = [f"    {it.name:{width}}  {it.about}" for it in COMMANDS.values()]
        return "\n".join([FORMS, "", *commands, "", KEYS, "", f"help WORD explains a refusal: {', '.join(REFUSALS)}"])
    said: List[str] = []
    it = COMMANDS.get(word)
    if it:
        members = " ".join(it.members) or "none"
        said.append(f"{it.name}: {it.about}\n    members  {members}\n    reply    {it.reply}\n    example  {it.example}")
    if word in REFUSALS:
        when, remedy = REFUSALS[word]
        said.append(f"refused as {word}: {when}\n    what to do  {remedy}")
    return "\n".join(said) or f"there is no command and no refusal {word}"


def with_readline(prompt: Prompt) -> None:
    """History and completion, where this Python has them."""
    try:
        import readline
    except ImportError:
        return

    def complete(word: str, n: int) -> Optional[str]:
        found = completions(readline.get_line_buffer()[: readline.get_endidx()], word, prompt.db.schema)
        return found[n] if n < len(found) else None

    readline.set_completer(complete)
    readline.set_completer_delims(" ")
    readline.parse_and_bind("tab: complete")
    try:
        readline.read_history_file(HISTORY)
    except OSError:
        pass
    import atexit

    def keep() -> None:
        try:
            readline.set_history_length(1000)
            readline.write_history_file(HISTORY)
        except OSError:
            pass

    atexit.register(keep)


class Prompt:
    """What one asks and sees on a connection, and on the next one where that has ended."""

    def __init__(
        self, db: Database, typed: bool, tables: bool, times: bool,
        again: Optional[Callable[[], Database]] = None, why: Callable[[BaseException], str] = str, learns: bool = False,
    ) -> None:
        """`again` gives another connection; `why` says what of an error is shown; `learns` is whether a server is asked for its schema, where
        that isn't known."""
        self.db, self.typed, self.tables, self.times = db, typed, tables, times
        self._again, self._why = again, why
        self._learns = learns
        self._asked: Optional[Database] = None
        """Which connection was asked for the schema."""
        self._behind: Optional[Behind] = None

    def answer(self, text: str) -> Optional[str]:
        """What is printed for a line, or None at `quit`. Raises Ended."""
        words = text.split()
        if not words:
            return self.next_page() if self.typed and self._behind else ""
        if words[0] in ("quit", "exit"):
            return None
        if words[0] == "help":
            return help_of(words[1] if len(words) > 1 else "")
        self.learn()
        if words[0].startswith("\\"):
            return self.setting(words)
        try:
            line = self.line(text)
        except ValueError as error:
            return f"not sent: {error}"
        self._behind = None
        began = time.perf_counter()
        reply = self.db.ask_line(line)
        took = time.perf_counter() - began
        return self.shown(line, reply) + self.page_note(line, reply) + (f"\n({took * 1000:.1f} ms)" if self.times else "")

    def learn(self) -> None:
        """Asks the server of each connection once for its schema. (At a terminal the prompt goes on where no reply comes.) Raises Ended."""
        if self._learns and self.db.is_open and self._asked is not self.db:
            self._asked = self.db
            self.db.learn_schema()

    def line(self, text: str) -> str:
        """The line to send; keys by columns are put in the order of their index where the schema is known."""
        line = line_of(text)
        if self.db.schema and not text.strip().startswith(("{", "[")):
            members = json.loads(line)
            index, table = members.get("index"), members.get("table")
            for name in ("key", "lower", "upper"):
                given = members.get(name)
                if name == "key" and isinstance(given, dict):
                    members[name] = list(self.db.schema.key(index, given, table))
                elif isinstance(given, dict):
                    members[name] = {side: self.db.schema.key(index, it, table) for side, it in given.items()}
            line = json.dumps(members, separators=(",", ":"), ensure_ascii=False)
        return line

    def shown(self, line: str, reply: str) -> str:
        if not self.tables:
            return reply
        try:
            asked = json.loads(line)
        except ValueError:
            asked = {}
        asked = asked if isinstance(asked, dict) else {}
        found = json.loads(reply)
        if not found["ok"]:
            word = found["error"]
            about = REFUSALS.get(word)
            why = explain.why(self.db.schema, asked, word) if "cmd" in asked else ""
            return f"{reply}\n{why or about[0]} (help {word})" if about else reply
        return show.reply(reply, self.db.schema, asked.get("table"))

    def page_note(self, line: str, reply: str) -> str:
        """Keeps what stands behind a page, and says how that is shown."""
        found = json.loads(reply)
        if not (found.get("more") and found.get("rows")):
            return ""
        try:
            self._behind = Behind(self.db, json.loads(line), found["rows"])
        except NeedsSchema as error:
            return f" ({error})" if self.tables else ""
        return self.next_note()

    def next_note(self) -> str:
        return NEXT if self._behind and self.typed and self.tables else ""

    def next_page(self) -> str:
        if not self._behind:
            return "there is no page behind"
        try:
            reply = self._behind.reply()
        except (NeedsSchema, Refused, TooManyEqual) as error:
            self._behind = None
            return f"not shown: {error}"
        shown = show.reply(reply, self.db.schema, self._behind.table) if self.tables else reply
        if not json.loads(reply)["more"]:
            self._behind = None
        return shown + self.next_note()

    def setting(self, words: List[str]) -> str:
        if words[0] == "\\x":
            self.tables = not self.tables
            return f"replies are shown as {'tables' if self.tables else 'lines'}"
        if words[0] == "\\t":
            self.times = not self.times
            return f"times are {'told' if self.times else 'hidden'}"
        if words[0] == "\\n":
            return self.next_page()
        if words[0] == "\\c":
            return self.connect_again()
        if words[0] == "\\d":
            return show.tables(self.db.schema) if self.db.schema else NO_SCHEMA
        if words[0] == "\\i" and len(words) == 2:
            return self.run_file(words[1])
        return f"not sent: there is no {words[0]}; help lists what is there"

    def run_file(self, path: str) -> str:
        """Runs a file's lines, up to a `quit`. What is printed goes out line by line; the time is told of all of them together."""
        times, self.times, count, began = self.times, False, 0, time.perf_counter()
        try:
            with open(path, encoding="utf-8") as file:
                for line in filter(str.strip, file):
                    said = self.answer(line)
                    if said is None:
                        break
                    count += 1
                    if said:
                        print(said, flush=True)
        except (Ended, BrokenPipeError):
            raise
        except (OSError, UnicodeDecodeError) as error:
            return f"not run: {error}"
        finally:
            self.times = times
        if times:
            print(f"({count} lines in {(time.perf_counter() - began) * 1000:.1f} ms)", flush=True)
        return ""

    def connect_again(self) -> str:
        if not self._again:
            return "not connected: there is nothing to connect to"
        self.db.close()
        self._behind = None
        try:
            self.db = self._again()
        except (OSError, ValueError) as error:
            return f"not connected: {self._why(error)}"
        return "connected; what the connection before held is undone"

    def gone(self, error: BaseException) -> str:
        """What is said where the connection has ended."""
        self._behind = None
        said = "interrupted while a reply was awaited" if isinstance(error, KeyboardInterrupt) else self._why(error)
        return f"{said}. The connection is closed, and what it held is undone; \\c connects again"

    def mark(self) -> str:
        """What stands before the line that is typed: how many sessions are open."""
        if not self.db.is_open:
            return "weltiyo (not connected)> "
        self.learn()
        depth = self.db.revision().depth
        return f"weltiyo [{depth}]> " if depth else "weltiyo> "

    def show(self, text: str) -> None:
        if not (self.typed and sys.stdout.isatty() and is_longer_than_screen(text) and through_pager(text)):
            print(text, flush=True)

    def leave(self) -> None:
        """Says what is undone at the end."""
        held = 0
        with contextlib.suppress(Ended):
            held = self.db.revision().held
        if held:
            sessions = "1 session" if held == 1 else f"{held} sessions"
            print(f"undone: {sessions} that this connection held, with all that changed since the first", file=sys.stderr)

    def run(self) -> None:
        """Asks what is typed or piped in, until its end. At a terminal the end of the connection isn't the end."""
        while True:
            try:
                said = self.step()
            except (Ended, KeyboardInterrupt) as error:
                if not self.typed:
                    raise
                print()
                said = "" if self.db.is_open else self.gone(error)
            if said is None:
                return self.leave()
            if said:
                self.show(said)

    def step(self) -> Optional[str]:
        """What is said to the next line, or None at the end. Raises Ended."""
        mark = self.mark() if self.typed else ""
        try:
            text = input(mark)
        except EOFError:
            if self.typed:
                print()
            return None
        return self.answer(text)


def main(words: Optional[List[str]] = None) -> int:
    parser = argparse.ArgumentParser(prog="weltiyo", description="A prompt for the table server.")
    add_server(parser)
    parser.add_argument("--run", metavar="FILE", help="runs the lines of a file in place of what is typed")
    parser.add_argument("--tables", action="store_true", help="shows replies as tables, as it does at a terminal")
    parser.add_argument("--times", action="store_true", help="tells how long commands take, as it does at a terminal")
    options = parser.parse_args(words)
    typed = sys.stdin.isatty() and not options.run
    try:
        with contextlib.ExitStack() as ends:
            again: Callable[[], Database] = lambda: opened(options, learns=False)
            learns = options.connect is not None and options.schema is None
            prompt = Prompt(again(), typed, typed or options.tables, typed or options.times, again, lambda it: why(it, options), learns)
            ends.callback(lambda: prompt.db.close())
            if typed:
                with_readline(prompt)
                print(WELCOME)
            if options.run:
                said = prompt.run_file(options.run)
                prompt.leave()
                if said:
                    print(f"weltiyo: {said}", file=sys.stderr)
                    return 1
            else:
                prompt.run()
    except KeyboardInterrupt:
        print("\nweltiyo: interrupted while a reply was awaited, so the connection is closed", file=sys.stderr)
        return 130
    except BrokenPipeError:
        raise  # (nobody reads what is written)
    except (Ended, OSError, ValueError) as error:
        print(f"weltiyo: {why(error, options)}", file=sys.stderr)
        return 1
    return 0
