"""How the files of a service's journal are called, and which segments are there. No file is opened.

    shop.journal           segment 1
    shop.journal.000002    a later segment
    shop.journal.base      the base"""
from __future__ import annotations

import os
from typing import List


def base_path(journal: str) -> str:
    """The path of a journal's base."""
    return f"{journal}.base"


def segment_path(journal: str, number: int) -> str:
    """The path of a segment: the journal's own of the first, and of others with the number behind it, which has six digits at least."""
    return journal if number == 1 else f"{journal}.{number:06}"


def numbers_of(journal: str) -> List[int]:
    """The numbers of the segments that are there, the lowest first. Raises OSError where their folder can't be read."""
    folder, name = os.path.split(os.path.abspath(journal))
    there = set(os.listdir(folder))
    ends = (it[len(name) + 1:] for it in there if it.startswith(f"{name}."))
    later = {int(it) for it in ends if it.isascii() and it.isdecimal()}
    return [it for it in sorted({1} | later) if it > 0 and segment_path(name, it) in there]
