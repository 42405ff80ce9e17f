"""The process `masklay --live`, and lines to it and from it."""

from __future__ import annotations

import os
import queue
import re
import subprocess
import tempfile
import threading
import time
from typing import Callable, List, Optional, Sequence, Union

from .errors import Late, OutOfMemory, ProcessError, StepError, TextFault
from .replies import ODD

Program = Union[str, "os.PathLike[str]", Sequence[str]]

CIF_FAULT = re.compile(rb"cif fault (\d+) (\w+) at (\d+)\n")
COMMENT = re.compile(rb"\((.*)\);\n")
#: How many bytes are read at a time.
PIECE = 1 << 16
#: Lines that would end a CIF text too early.
MARKS = (b"%session", b"%order", b"%live")


def text_bytes(cif: Union[bytes, str]) -> bytes:
    """Returns a CIF text as whole lines of bytes. `ValueError` where a line of it would be taken for one of the program's."""
    text = cif.encode("utf-8", "surrogateescape") if isinstance(cif, str) else bytes(cif)
    text = text if text.endswith(b"\n") else text + b"\n"
    if any(line.startswith(MARKS) for line in text.split(b"\n")):
        raise ValueError("a line of the CIF text begins with %session, %order or %live")
    return text


def words_of_program(program: Program) -> List[str]:
    """Returns the words that start a program."""
    return [os.fspath(program)] if isinstance(program, (str, os.PathLike)) else list(program)


def head_of(text: bytes) -> bytes:
    """Returns the lines in front of the steps."""
    return b"%cif\n" + text + b"%live\n"


class Process:
    """A running program, to which the lines of `head` go first. `text` is the CIF text from which it begins. One thread at a
    time may use it."""

    def __init__(self, head: bytes, text: bytes, program: Program, options: Sequence[str], timeout: float) -> None:
        self._text = text
        self.timeout = timeout
        self._ended: Optional[ProcessError] = None
        self._errors = tempfile.TemporaryFile()
        self._pieces: "queue.Queue[bytes]" = queue.Queue()
        self._came = bytearray()
        # how the replies whose callers were interrupted are read, in their order
        self._owed: List[Callable[[float], None]] = []
        self._wanted: "queue.Queue[Optional[bytes]]" = queue.Queue()
        pipe = subprocess.PIPE
        try:
            # a session of its own: an interrupt of the terminal is this process's, and the program goes on
            self._child = subprocess.Popen(
                [*words_of_program(program), "--live", *options],
                stdin=pipe, stdout=pipe, stderr=self._errors, start_new_session=True,
            )  # fmt: skip
        except BaseException:
            self._errors.close()
            raise
        self._threads = [threading.Thread(target=it, daemon=True) for it in (self._read, self._write)]
        for it in self._threads:
            it.start()
        self._put(head)

    def _read(self) -> None:
        """Keeps what the program writes, piece by piece, and an empty piece at the end. It runs in a thread of its own."""
        assert self._child.stdout is not None
        while piece := os.read(self._child.stdout.fileno(), PIECE):
            self._pieces.put(piece)
        self._pieces.put(b"")

    def _write(self) -> None:
        """Sends lines, and ends the input behind the last. It runs in a thread of its own, so that no call waits for a program
        that doesn't read; a line that doesn't arrive is found where its reply is waited for."""
        assert self._child.stdin is not None
        try:
            for lines in iter(self._wanted.get, None):
                self._child.stdin.write(lines)
                self._child.stdin.flush()
        except OSError:
            pass
        try:
            self._child.stdin.close()
        except OSError:
            pass

    def _put(self, lines: Optional[bytes]) -> None:
        """Has lines sent, or the input ended."""
        self._wanted.put(lines)

    def ask(self, line: bytes, late: Callable[[bytes], None] = lambda reply: None) -> bytes:
        """Sends a line and returns the one that answers it. Where an interrupt comes before that, `late` gets it when it comes."""
        return self._answer(line, self._line, late)

    def ask_text(self, line: bytes) -> bytes:
        """Sends a line and returns the lines that answer it, up to `E`."""
        return self._answer(line, self._lines, lambda text: None)

    def ask_all(self, line: bytes) -> List[str]:
        """Sends a question and returns the comments that answer it, without the last."""
        answer = self._answer(line, self._comments, lambda text: None)
        if ODD.fullmatch(answer):
            raise StepError("the program takes this for no question")
        return [found.decode("ascii", "replace") for found in COMMENT.findall(answer)[:-1]]

    def finish(self) -> bytes:
        """Ends the input and returns all that is written then."""
        until = self._begin()
        self._put(None)
        while self._more(until):
            pass
        output = self._taken(len(self._came))
        said = self._end()
        if self._child.returncode != 0:
            raise self._fail(output[output.rfind(b"\n", 0, -1) + 1 :], said)
        self._ended = ProcessError("the layout is closed", 0, said)
        return output

    def _begin(self) -> float:
        """Begins a call, once the replies that earlier ones were interrupted for have come. Returns the time at which it ends."""
        self._check()
        until = time.monotonic() + self.timeout
        while self._owed:
            self._owed[0](until)
            del self._owed[0]
        return until

    def _answer(self, line: bytes, read: Callable[[float], bytes], late: Callable[[bytes], None]) -> bytes:
        """Sends a line and returns what is read; where an interrupt comes, it is read and given to `late` at the next call."""
        until = self._begin()
        try:
            self._put(line + b"\n")
            return read(until)
        except ProcessError:
            raise
        except BaseException:
            self._owed.append(lambda until: late(read(until)))
            raise

    def kill(self) -> None:
        """Ends the process, if it runs."""
        if self._ended is None:
            self._child.kill()
            self._ended = ProcessError("the layout is closed", None, self._end())

    def _check(self) -> None:
        if self._ended is not None:
            raise self._ended

    def _more(self, until: float) -> bool:
        """Waits for the next piece of what the program writes. Returns whether there is one."""
        try:
            piece = self._pieces.get(timeout=max(0.0, until - time.monotonic()))
        except queue.Empty:
            self._child.kill()
            self._ended = Late(f"no reply in {self.timeout} s", None, self._end())
            raise self._ended from None
        self._came += piece
        return piece != b""

    def _taken(self, size: int) -> bytes:
        """Takes so many bytes of what has come."""
        taken = bytes(self._came[:size])
        del self._came[:size]
        return taken

    def _line(self, until: float) -> bytes:
        """Returns the next line, where it is a reply."""
        seen = 0
        while (end := self._came.find(b"\n", seen)) < 0:
            seen = len(self._came)
            if not self._more(until):
                raise self._fail(self._taken(seen), self._end())
        return self._reply(self._taken(end + 1))

    def _lines(self, until: float) -> bytes:
        """Returns the next lines up to `E`, where they are a reply."""
        seen = 0
        while (end := self._came.find(b"\nE\n", seen)) < 0:
            seen = max(0, len(self._came) - 2)
            if not self._more(until):
                raise self._fail(self._taken(len(self._came)), self._end())
        return self._reply(self._taken(end + 3))

    def _comments(self, until: float) -> bytes:
        """Returns the next lines up to `(end);`, or the one that says that the question is none."""
        lines = [self._line(until)]
        while lines[-1] != b"(end);\n" and not ODD.fullmatch(lines[-1]):
            lines.append(self._line(until))
        return b"".join(lines)

    def _reply(self, reply: bytes) -> bytes:
        """Returns what the program wrote, where it is no last line."""
        if reply == b"out of memory\n" or reply.startswith((b"cif fault ", b"job fault ")):
            raise self._fail(reply, self._end())
        return reply

    def _fail(self, line: bytes, said: str) -> ProcessError:
        """Returns why the process has ended, by its last line, and keeps it."""
        status = self._child.returncode
        found = CIF_FAULT.fullmatch(line)
        if found is not None:
            self._ended = TextFault(int(found[1]), found[2].decode(), int(found[3]), self._text, status, said)
        elif line == b"out of memory\n":
            self._ended = OutOfMemory("out of memory", status, said)
        else:
            self._ended = ProcessError(f"the process has ended with status {status}", status, said)
        return self._ended

    def _end(self) -> str:
        """Waits for the process's end, lets its pipes go, and returns what it said on standard error."""
        self._put(None)
        try:
            self._child.wait(self.timeout)
        except subprocess.TimeoutExpired:
            self._child.kill()
            self._child.wait()
        for it in self._threads:
            it.join(self.timeout)
        if self._child.stdout is not None and not self._threads[0].is_alive():
            self._child.stdout.close()
        self._errors.seek(0)
        said = self._errors.read().decode("utf-8", "replace")
        self._errors.close()
        return said
