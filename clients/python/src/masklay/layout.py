"""A layout in a process of its own, and its sessions."""

from __future__ import annotations

import contextlib
import os
import re
import threading
from types import TracebackType
from typing import Dict, List, Optional, Tuple, Type, Union

from .errors import MasklayError, ProcessError
from .journal import Path, names_in, parts_of
from .process import Process, Program, head_of, text_bytes
from .replies import ODD, Change, Committed, Placed, Shape, accepted, cell_of, change_of, item_of, words_of
from .transaction import Cell, Transaction, cell_word, id_word

Item = Union[Shape, Placed]

#: How many sessions a layout has.
SESSIONS = 64
NAME = re.compile(r"\d+\.\d+")
ORDER = re.compile(rb"\(order((?: \d+)+)\);\n")


class Layout:
    """A layout that sessions edit. `Layout.read` makes one; as a context manager it is closed at the end.

    Threads may share it, with a session each: a call has the process for itself until its reply has come.
    """

    #: After `close`: the numbers of the sessions in the order in which their steps ran.
    order: List[int]

    #: The symbols by the names that they have in the text from which the layout begins.
    names: Dict[str, int]

    def __init__(self, process: Process, text: bytes, taken: Optional[List[int]] = None) -> None:
        self.order = []
        self.names = names_in(text)
        self._process = process
        self._lock = threading.Lock()
        self._given = 0
        self._taken = taken or [0] * (SESSIONS + 1)
        self._closed: Optional[str] = None

    @classmethod
    def read(
        cls,
        cif: Union[bytes, str],
        program: Program = "masklay",
        *,
        workers: int = 1,
        timeout: float = 60.0,
        journal: Optional[Path] = None,
        sync: bool = False,
        named: bool = False,
        oriented: bool = False,
    ) -> "Layout":
        """Starts the program on a CIF text.

        With `journal`, a file that isn't there yet or is empty, each step is in that file before its reply, and `Layout.recover`
        begins from it later. What is committed, undone or redone is on the disk then; with `sync` each step is.

        With `named` what is written has the text's names of symbols and labels; with `oriented` its paths are filled alike by
        even-odd and by winding number, where such paths are found.

        An interrupt while a call waits (`KeyboardInterrupt`) leaves the layout in use: the step is taken, and its reply is
        passed over by the next call.

        `program` is its path, or a list of words. `workers` find the edges of an operation. Each call waits `timeout` seconds for
        its reply, and raises `Late` then.

        Raises `TextFault` where the text isn't read, `FileExistsError` where the journal has something, and `OSError` where the
        program can't be started.
        """
        if journal is not None and os.path.exists(journal) and os.path.getsize(journal):
            raise FileExistsError(f"{os.fspath(journal)} has steps already: Layout.recover begins from it")
        text = text_bytes(cif)
        options = options_of(workers, journal, sync, named, oriented)
        process = Process(head_of(text), text, program, options, timeout)
        return cls._begun(process, text, None)

    @classmethod
    def recover(
        cls,
        journal: Path,
        program: Program = "masklay",
        *,
        workers: int = 1,
        timeout: float = 60.0,
        sync: bool = False,
        named: bool = False,
        oriented: bool = False,
    ) -> "Layout":
        """Begins from the journal of a layout whose process has ended, however it did: all that was committed is there, under its
        name. Transactions that were open are given up; sessions begin with 1 again, and their transactions' numbers go on.

        Raises `ProcessError` where the file is no journal, or another process has it.
        """
        text, taken = parts_of(journal, SESSIONS)
        options = options_of(workers, journal, sync, named, oriented)
        process = Process(b"", text, program, options, timeout)
        layout = cls._begun(process, text, taken)
        try:
            layout._give_up()
        except BaseException:
            process.kill()
            raise
        return layout

    @classmethod
    def _begun(cls, process: Process, text: bytes, taken: Optional[List[int]]) -> "Layout":
        try:
            # The answer to a question shows that the text was read.
            process.ask_all(b"%history")
        except BaseException:
            process.kill()
            raise
        return cls(process, text, taken)

    def _give_up(self) -> None:
        """Cancels what is open in sessions that took steps."""
        for session in range(1, SESSIONS + 1):
            if self._taken[session]:
                with contextlib.suppress(MasklayError):
                    self.step(session, "cancel")

    def session(self) -> "Session":
        """Returns the next session: 1 at first, 64 at last. A 65th is refused as `NoSession`."""
        with self._lock:
            if self._given == SESSIONS:
                raise MasklayError(30, "NoSession")
            self._given += 1
            return Session(self, self._given)

    def step(self, session: int, step: str) -> str:
        """Sends a step of a session as a line of a job's script has it, and returns the words of its reply, as `made 1.1.1`.

        All other calls go through this one. Raises `MasklayError` where the step is refused, and `StepError` where it is none.
        """
        if not step.isprintable():
            raise ValueError(f"a step is one line of printed characters, and not {step!r}")
        line = f"{session} {step}".encode("utf-8")
        with self._lock:
            reply = self._process.ask(line, lambda late: self._count(session, late))
            self._count(session, reply)
            words = words_of(reply, session, self._taken[session])
        return accepted(words)

    def _count(self, session: int, reply: bytes) -> None:
        """Counts a step of the session that was answered so; a line that is no step isn't counted."""
        if not ODD.fullmatch(reply):
            self._taken[session] += 1

    def undo(self, name: str) -> None:
        """Takes the transaction of this name back, whichever session made it. It is a step of session 1."""
        self._named(1, "undo", name)

    def redo(self, name: str) -> None:
        """Brings a transaction back that was undone. It is a step of session 1."""
        self._named(1, "redo", name)

    def _named(self, session: int, word: str, name: str) -> None:
        self.step(session, f"{word} {name_word(name)}")

    def cells(self) -> Dict[Cell, int]:
        """Returns how many items each cell has, of what is committed: `top` first, then the symbols by number."""
        lines = [words.split(" ") for words in self._asked("%cells")]
        return {cell_of(cell): int(count) for _, cell, count, *_ in lines}

    def items(self, cell: Cell = "top") -> Dict[str, Item]:
        """Returns the items of a cell by their ids, of what is committed. `MasklayError` where there is no such cell."""
        lines = [words.split(" ", 1) for words in self._asked(f"%items {cell_word(self.cell(cell))}")]
        return {id: item_of(words) for id, words in lines}

    def look(self, id: str) -> Item:
        """Returns an item of what is committed. `MasklayError` where there is none of this id."""
        (words,) = self._asked(f"%look {id_word(id)}")
        return item_of(words.split(" ", 1)[1])

    def history(self) -> List[Committed]:
        """Returns the committed transactions in the order of their commits."""
        lines = [words.split(" ") for words in self._asked("%history")]
        return [Committed(name, mark == "live") for name, mark in lines]

    def changes(self, name: str) -> List[Change]:
        """Returns what the commit of the transaction did, and its undo takes back: items, then symbols."""
        return [change_of(words) for words in self._asked(f"%changes {name_word(name)}")]

    def cell(self, cell: Cell) -> Cell:
        """Returns `top`, a symbol's number, or the number of the symbol that has this name in the text from which the layout
        begins. `KeyError` where none has."""
        return cell if cell == "top" or not isinstance(cell, str) else self.names[cell]

    def _asked(self, question: str) -> List[str]:
        """Returns the words of the lines that answer a question."""
        with self._lock:
            lines = self._process.ask_all(question.encode("ascii"))
        for words in lines:
            accepted(words)
        return lines

    def write(self) -> str:
        """Returns the CIF text of the layout as it is now, without what is in open transactions."""
        with self._lock:
            return decoded(self._process.ask_text(b"%write"))

    def close(self) -> str:
        """Ends the process and returns the CIF text of the layout. Open transactions are lost. A second call returns the same."""
        with self._lock:
            if self._closed is None:
                lines, self.order = without_order(self._process.finish())
                self._closed = decoded(lines)
            return self._closed

    def __enter__(self) -> "Layout":
        return self

    def __exit__(
        self, kind: Optional[Type[BaseException]], error: Optional[BaseException], trace: Optional[TracebackType]
    ) -> None:
        try:
            self.close()
        except ProcessError:
            if error is None:
                raise
        finally:
            self._process.kill()


class Session:
    """One who edits a layout, with at most one transaction open. `Layout.session` gives it."""

    #: Its number, from 1 to 64.
    number: int

    def __init__(self, layout: Layout, number: int) -> None:
        self.layout, self.number = layout, number

    def transaction(self) -> Transaction:
        """Returns a transaction, which a `with` opens, and commits at its end, or cancels where an exception leaves it."""
        return Transaction(self)

    def step(self, step: str) -> str:
        """Sends a step as a line of a job's script has it, and returns the words of its reply."""
        return self.layout.step(self.number, step)

    def undo(self, name: str) -> None:
        """Takes the transaction of this name back, whichever session made it."""
        self.layout._named(self.number, "undo", name)

    def redo(self, name: str) -> None:
        """Brings a transaction back that was undone."""
        self.layout._named(self.number, "redo", name)


def options_of(workers: int, journal: Optional[Path], sync: bool, named: bool, oriented: bool) -> List[str]:
    """Returns the words of the options. `ValueError` where there are none or too many workers."""
    if not 1 <= workers <= 64:
        raise ValueError(f"there are 1 to 64 workers, and not {workers}")
    options = ["--workers", str(workers)] if workers != 1 else []
    options += ["--names"] * named + ["--oriented"] * oriented
    if journal is not None:
        options += ["--journal", os.fspath(journal)] + (["--sync"] if sync else [])
    return options


def name_word(name: str) -> str:
    """Returns a transaction's name. `ValueError` where it is none."""
    if not NAME.fullmatch(name):
        raise ValueError(f"a transaction's name is like 1.1, and not {name!r}")
    return name


def decoded(text: bytes) -> str:
    """Returns a text of bytes as a string, from which the bytes can be had again, if they aren't UTF-8 too."""
    return text.decode("utf-8", "surrogateescape")


def without_order(output: bytes) -> Tuple[bytes, List[int]]:
    """Returns what is written at the end without the comments of the order at its beginning, and the order."""
    order: List[int] = []
    at = 0
    while (found := ORDER.match(output, at)) is not None:
        order += [int(word) for word in found[1].split()]
        at = found.end()
    return output[at:], order
