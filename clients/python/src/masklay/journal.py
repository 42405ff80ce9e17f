"""Journals of live runs, and names of cells, as texts."""

from __future__ import annotations

import os
import re
from typing import Dict, List, Tuple, Union

Path = Union[str, "os.PathLike[str]"]

#: What stands between the parts of a command.
BLANK = rb"[^A-Z0-9\-();]*"
DEFINED = re.compile(BLANK + rb"D" + BLANK + rb"S" + rb"[^0-9();]*(\d+)")
ENDED = re.compile(BLANK + rb"D" + BLANK + rb"F")
NAMED = re.compile(rb"\s*9\s+(\S+)\s*")
COMMENTS = re.compile(rb"\([^()]*\)")


def parts_of(path: Path, sessions: int) -> Tuple[bytes, List[int]]:
    """Returns the CIF text of a journal, and how many steps each session took in it."""
    with open(path, "rb") as file:
        lines = file.read().split(b"\n")[:-1]
    live = next((i for i, line in enumerate(lines) if line.startswith(b"%live")), len(lines))
    taken = [0] * (sessions + 1)
    for line in lines[live + 1 :]:
        words = line.split()
        if words and words[0].isdigit() and int(words[0]) <= sessions:
            taken[int(words[0])] += 1
    return b"".join(line + b"\n" for line in lines[1:live]), taken


def names_in(text: bytes) -> Dict[str, int]:
    """Returns the symbols of a CIF text by their names, which commands `9` give."""
    while COMMENTS.search(text):
        text = COMMENTS.sub(b" ", text)
    names: Dict[str, int] = {}
    number = None
    for command in text.split(b";"):
        if defined := DEFINED.match(command):
            number = int(defined[1])
        elif ENDED.match(command):
            number = None
        elif number is not None and (named := NAMED.fullmatch(command)):
            names[named[1].decode("utf-8", "surrogateescape")] = number
    return names
