"""The tool web: a window onto the tables in a browser. It serves one page on 127.0.0.1, for whoever has the address that it prints."""
from __future__ import annotations

import argparse
import sys
import threading
from typing import Callable, List, Optional, Tuple

from mi_client import Database, Ended, Schema
from mi_tools.opening import add_source, called, connected, opened, program_of, source_words, why
from mi_tools.web_http import Window
from mi_tools.web_source import Source

LONG_SECONDS = 2.0


def source_of(options: argparse.Namespace) -> Tuple[Source, str]:
    """Where the page's lines go, and how it is called. Raises OSError and ValueError."""
    schema = Schema.read(options.schema) if options.schema else None
    if options.connect is None:
        # (a server of its own has its tables with its connection, so there is none to come back to)
        return Source(lambda: opened(options), schema or Schema.built_in(), None, False), options.journal or program_of(options)
    connect: Callable[[], Database] = lambda: connected(options, schema)
    return Source(connect, schema, options.connect, True), called(options.connect)


def parser_of() -> argparse.ArgumentParser:
    about = "Shows the tables of a running server in a browser, by a page on 127.0.0.1 for whoever has the address that is printed. Read-only."
    parser = argparse.ArgumentParser(prog="weltiyo web", description=about)
    add_source(parser)
    parser.add_argument("--port", type=int, default=0, help="the page's port of 127.0.0.1; without it the system gives a free one")
    parser.add_argument("--write", action="store_true", help="lets the page change rows, and start, squash and undo sessions")
    return parser


def main(words: Optional[List[str]] = None) -> int:
    parser = parser_of()
    options = source_words(parser, words, lambda it: it.write)
    if not 0 <= options.port <= 65535:
        parser.error("--port is 0 to 65535")
    try:
        source, title = source_of(options)
        window = Window(options.port, source, options.write, title)
        try:
            waits = threading.Timer(LONG_SECONDS, lambda: print("weltiyo web: waiting for the server", file=sys.stderr, flush=True))
            waits.daemon = True
            waits.start()
            source.start()
            waits.cancel()
            print(f"{title}, {'changes allowed' if options.write else 'read-only'}; who has this address is let in, Ctrl-C ends it:")
            print(window.address, flush=True)
            window.serve_forever()
        finally:
            window.server_close()
            source.close()
    except KeyboardInterrupt:
        print()
    except (Ended, OSError, OverflowError, ValueError) as error:
        print(f"weltiyo web: {why(error, options)}", file=sys.stderr)
        return 1
    return 0
