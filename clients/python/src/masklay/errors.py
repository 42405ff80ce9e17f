"""What can go wrong: refusals, which change nothing, and ends of the process."""

from __future__ import annotations

from typing import Optional

from .refusals import SENTENCES


class Error(Exception):
    """Any error of this package but those of arguments."""


class MasklayError(Error):
    """A step was refused. Nothing has changed; but a commit that is `Stale` has ended its transaction.

    `docs/FORMAT.md` of masklay lists the numbers. `str` of it ends with the cause and what to do.
    """

    #: The number of the refusal, as 23.
    number: int
    #: Its name, as `Depends`.
    name: str
    #: The transaction that is in the way, as `2.1`, after `Depends`, `Moved` and `Stale`.
    transaction: Optional[str]
    #: The cause and what to do, a sentence.
    sentence: str

    def __init__(self, number: int, name: str, transaction: Optional[str] = None) -> None:
        self.number, self.name, self.transaction = number, name, transaction
        self.sentence = SENTENCES.get(number, "")
        words = f"fault {number} {name}" + (f" {transaction}" if transaction else "")
        super().__init__(f"{words}: {self.sentence}" if self.sentence else words)


class StepError(Error, ValueError):
    """The program took a line for no step, as for a layer `m` or a coordinate beyond 32 bits. Nothing has changed."""


class ProcessError(Error):
    """The process is at its end, or was ended; the layout can't be used any more."""

    #: The status with which the process ended, or None where that isn't known.
    status: Optional[int]
    #: What it said on standard error.
    said: str

    def __init__(self, words: str, status: Optional[int] = None, said: str = "") -> None:
        self.status, self.said = status, said
        super().__init__(f"{words}\n{said}".rstrip())


class TextFault(ProcessError):
    """The CIF text isn't read. `said` tells line, column and what to do."""

    #: The number of the fault, as 7.
    number: int
    #: Its name, as `NoLayer`.
    name: str
    #: How many bytes of the text come before.
    offset: int
    #: The line of the text, from 1, and the byte of that line, from 1.
    line: int
    column: int

    def __init__(self, number: int, name: str, offset: int, text: bytes, status: Optional[int], said: str) -> None:
        self.number, self.name, self.offset = number, name, offset
        self.line = text.count(b"\n", 0, offset) + 1
        self.column = offset - text.rfind(b"\n", 0, offset)
        super().__init__(f"cif fault {number} {name} at {offset}", status, said)


class OutOfMemory(ProcessError, MemoryError):
    """A growth of memory was refused, and the process has ended."""


class Late(ProcessError, TimeoutError):
    """No reply came in time. The process was ended: a reply that comes later would be taken for another's."""
