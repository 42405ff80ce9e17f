"""A CIF text as the program writes it, without a run."""

from __future__ import annotations

import subprocess
from typing import Union

from .errors import OutOfMemory, ProcessError, TextFault
from .process import CIF_FAULT, Program, text_bytes, words_of_program


def rewritten(cif: Union[bytes, str], program: Program = "masklay", *, oriented: bool = True, names: bool = True) -> str:
    """Returns a CIF text as the program writes it.

    With `oriented` its shapes are directed, so that readers by winding number, as KLayout, see their holes too; with `names` the names
    of cells and the labels stay. What a layout writes is given to it before an editor opens it.

    Raises `TextFault` where the text isn't read, and `OSError` where the program can't be started.
    """
    options = ["--oriented"] * oriented + ["--names"] * names
    text = text_bytes(cif)
    done = subprocess.run([*words_of_program(program), *options], input=b"%cif\n" + text, stdout=subprocess.PIPE, stderr=subprocess.PIPE)
    said = done.stderr.decode("utf-8", "replace")
    found = CIF_FAULT.fullmatch(done.stdout)
    if found is not None:
        raise TextFault(int(found[1]), found[2].decode(), int(found[3]), text, done.returncode, said)
    if done.returncode == 6:
        raise OutOfMemory("out of memory", done.returncode, said)
    if done.returncode != 0:
        raise ProcessError(f"the process has ended with status {done.returncode}", done.returncode, said)
    return done.stdout.decode("utf-8", "surrogateescape")
