"""The lines that `mi_service` answers itself: its status, and the text of its schema. `mi_server` refuses them."""
from __future__ import annotations

import json
from typing import Any, Dict, Optional

from mi_client.database import Database
from mi_client.schema import SCHEMA_LINE

__all__ = ["SCHEMA_LINE", "STATUS_LINE", "schema_text", "status"]
STATUS_LINE = '{"service":"status"}'
"""The line that a service answers with its status."""


def status(db: Database) -> Optional[Dict[str, Any]]:
    """The status of the service: its connections, who holds sessions, how many are open, how far its journal is, and the rows and memory of each
    table. None of a server that has none."""
    reply: Dict[str, Any] = json.loads(db.ask_line(STATUS_LINE))
    return reply if reply.get("ok") else None


def schema_text(db: Database) -> Optional[str]:
    """The text of the schema that the service was started with. None of a server that doesn't tell it."""
    reply: Dict[str, Any] = json.loads(db.ask_line(SCHEMA_LINE))
    return str(reply["schema"]) if reply.get("ok") else None
