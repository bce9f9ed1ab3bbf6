"""The short form of commands at the prompt: what is typed, as members of a command. It asks nothing."""
from __future__ import annotations

import json
import re
from typing import Any, Dict, List, Tuple

from mi_client.commands import COMMANDS

MEMBER = re.compile(r"([a-z_][a-z0-9_]*)=")

FORMS = """A line is a command as JSON, which is sent as it stands, or in the short form
    COMMAND MEMBER=VALUE ..
where a value is JSON; one that is no JSON, as a bare word, is a text. Needed members may be given without
their names, in the order in which help has them: get 0, find by_owner ann, insert {"owner":"ann",..}"""


def blanks(text: str, at: int) -> int:
    while at < len(text) and text[at].isspace():
        at += 1
    return at


def value_at(text: str, at: int) -> Tuple[Any, int]:
    """The value that begins here and where it ends: JSON up to a space, else the text up to the next space. Raises ValueError
    where it begins as JSON and isn't."""
    try:
        found, end = json.JSONDecoder().raw_decode(text, at)
        if end == len(text) or text[end].isspace():
            return found, end
    except ValueError as error:
        if text[at:at + 1] in ("{", "[", '"'):
            raise ValueError(f"`{text[at:]}` is no JSON: {error}") from None
    words = text[at:].split(None, 1)
    word = words[0] if words and not text[at:at + 1].isspace() else ""
    return word, at + len(word)


def names_of(command: str) -> List[str]:
    """The members of a command, in the order in which values without names are taken."""
    return [it.strip("[]") for it in COMMANDS[command].members] if command in COMMANDS else []


def members_of(text: str) -> Dict[str, Any]:
    """The members of a command in the short form. Raises ValueError where it is none."""
    name, _, rest = text.strip().partition(" ")
    members: Dict[str, Any] = {"cmd": name}
    at = blanks(rest, 0)
    while at < len(rest):
        found = MEMBER.match(rest, at)
        if found:
            member, at = found[1], found.end()
        else:
            free = [it for it in names_of(name) if it not in members]
            if not free:
                raise ValueError(f"`{rest[at:]}` has no MEMBER=VALUE; help {name} has the members")
            member = free[0]
        members[member], at = value_at(rest, at)
        if member == "key" and not isinstance(members[member], (list, dict)):
            members[member] = [members[member]]
        at = blanks(rest, at)
    return members


def line_of(text: str) -> str:
    """The line that is sent for what was typed. Raises ValueError where it is no command of the short form."""
    text = text.strip()
    if text.startswith(("{", "[")):
        return text
    return json.dumps(members_of(text), separators=(",", ":"), ensure_ascii=False)
