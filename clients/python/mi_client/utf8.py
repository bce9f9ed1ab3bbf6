"""Lines that aren't UTF-8: which byte is at fault."""
from __future__ import annotations


def fault_of(line: bytes, at: int) -> str:
    """What is wrong with the byte at this place of a line, from 0."""
    return f"the byte 0x{line[at]:02X}, number {at + 1} of the line, isn't UTF-8"


def text_of(line: bytes) -> str:
    """The text of a line. Raises ValueError, which says the byte."""
    try:
        return line.decode("utf-8")
    except UnicodeDecodeError as error:
        raise ValueError(fault_of(line, error.start)) from None
