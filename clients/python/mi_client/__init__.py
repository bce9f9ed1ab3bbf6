"""A client of the table server: every command as a call, over a loopback connection or the pipes of a server of its own.

    from mi_client import Database, Refused

    with Database.start("mi_server") as db:
        ann = db.insert({"owner": "ann", "balance": 50, "vip": False})
        with db.session():                  # undone where the block raises, else squashed
            db.modify(ann, add={"balance": -20})

It needs Python 3.9 and nothing else. The tools over it are the package `mi_tools`.
"""
from mi_client.database import Database
from mi_client.embedded import Embedded
from mi_client.errors import Ended, NeedsSchema, Refused, TooManyEqual
from mi_client.members import connect_leader
from mi_client.pipeline import Answer, Pipeline
from mi_client.plans import Window
from mi_client.request import Page, Revision
from mi_client.schema import Schema
from mi_client.server import Server

__version__ = "0.1.0"

__all__ = [
    "Answer", "Database", "Embedded", "Ended", "NeedsSchema", "Page", "Pipeline", "Refused", "Revision", "Schema", "Server", "TooManyEqual",
    "Window", "connect_leader",
]
