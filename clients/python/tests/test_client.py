"""Tests of the client against the built program: env MASKLAY, else crates/masklay/out/masklay of this repository."""

import os
import signal
import subprocess
import sys
import tempfile
import threading
import time
import unittest
from pathlib import Path

from masklay import (
    Change, Committed, Late, Layout, MasklayError, OutOfMemory, Placed, ProcessError, Shape, StepError, TextFault, rewritten, um,
)  # fmt: skip
from masklay.flat import polygons_of

HERE = Path(__file__).resolve().parent
PROGRAM = os.environ.get("MASKLAY", str(HERE.parents[2] / "crates/masklay/out/masklay"))
#: How long a reply may take; a program that answers at the end of its input only never does.
TIMEOUT = 10.0


def read(cif="E", program=PROGRAM, **options):
    """Returns the layout of a text."""
    return Layout.read(cif, program, **{"timeout": TIMEOUT, **options})


def fake(*lines):
    """Returns a program of these lines of Python."""
    return [sys.executable, "-c", "import sys, time\n" + "\n".join(lines)]


class Editing(unittest.TestCase):
    """What is drawn in transactions."""

    def test_a_box_is_written(self):
        """Could catch corners in another unit or order, a commit that isn't sent, and an id that isn't the reply's."""
        with read() as layout:
            with layout.session().transaction() as t:
                self.assertIsNone(t.name)
                self.assertEqual(t.box("M", (30, 20), (0, 0)), "1.1.1")
            self.assertEqual(t.name, "1.1")
            text = layout.write()
        self.assertEqual(text, "DS 1 1 2;\nL M;\nP 0 0 30 0 30 20 0 20;\nDF;\nC 1;\nE\n")

    def test_all_commands(self):
        """Could catch a command with its words in another order, and a look that is taken apart wrongly."""
        with read("DS 1; L A; B 2 2 1 1; DF; C 1; E") as layout, layout.session().transaction() as t:
            self.assertEqual(t.make_cell(7), 7)
            poly = t.polygon("Q", [(0, 0), (4, 0), (4, 6)], cell=7)
            self.assertEqual(t.look(poly), Shape(7, "Q", (((0, 0), (4, 0), (4, 6)),)))
            t.set_layer(poly, "Z9")
            t.move(poly, -1, 2)
            self.assertEqual(t.look(poly), Shape(7, "Z9", (((-1, 2), (3, 2), (3, 8)),)))
            call = t.place(7, (5, -6), turn="m90", cell=1)
            self.assertEqual(t.look(call), Placed(1, 7, "m90", (5, -6)))
            self.assertEqual(t.look("0.0.1"), Shape(1, "A", (((0, 0), (4, 0), (4, 4), (0, 4)),)))
            t.delete(call)
            t.delete(poly)
            t.remove_cell(7)
            self.assertEqual((poly, call), ("1.1.1", "1.1.2"))

    def test_booleans(self):
        """Could catch an operation that is another, exchanged layers, and ids or rings that are lost."""
        with read() as layout, layout.session().transaction() as t:
            t.box("A", (0, 0), (60, 60))
            t.box("B", (20, 20), (40, 40))
            t.box("C", (20, -10), (40, 70))
            (ring,) = t.boolean("not", "A", "B", "Q")
            self.assertEqual(len(t.look(ring).rings), 2)
            self.assertEqual(t.boolean("not", "A", "C", "R"), ["1.1.5", "1.1.6"])
            self.assertEqual(t.boolean("not", "B", "A", "S"), [])
            (both,) = t.boolean("and", "A", "B", "S")
            self.assertEqual(sorted(t.look(both).rings[0]), [(20, 20), (20, 40), (40, 20), (40, 40)])
            (either,) = t.boolean("or", "A", "B", "S")
            self.assertEqual(sorted(t.look(either).rings[0]), [(0, 0), (0, 60), (60, 0), (60, 60)])
            self.assertEqual(len(t.look(t.boolean("xor", "A", "B", "S")[0]).rings), 2)

    def test_an_exception_cancels(self):
        """Could catch a transaction that is committed, or left open, where its block fails."""
        with read() as layout:
            session = layout.session()
            with self.assertRaisesRegex(KeyError, "mine"):
                with session.transaction() as t:
                    t.box("M", (0, 0), (1, 1))
                    raise KeyError("mine")
            self.assertIsNone(t.name)
            with session.transaction():
                pass
            self.assertNotIn("P ", layout.write())

    def test_a_text_is_rewritten(self):
        """Could catch options that aren't given to the program, and a fault that is taken for a text."""
        with read(workers=2) as layout:
            with layout.session().transaction() as t:
                t.box("A", (0, 0), (60, 60))
                t.box("B", (20, 20), (40, 40))
                t.boolean("not", "A", "B", "Q")
            text = layout.write()
            self.assertEqual(layout.close(), text)
        self.assertEqual(rewritten(text, PROGRAM, oriented=False), text)
        self.assertNotEqual(rewritten(text, PROGRAM), text)
        named = "DS 1; 9 INV; L A; B 2 2 0 0; DF; C 1; E"
        self.assertIn("\n9 INV;\n", rewritten(named, PROGRAM))
        self.assertNotIn("INV", rewritten(named, PROGRAM, names=False))
        with self.assertRaises(TextFault):
            rewritten("W 1;", PROGRAM)


class History(unittest.TestCase):
    """Undo by name, and what is in the way."""

    # Could catch an option that isn't handed on, and an answer with a name that isn't understood.
    def test_names_and_directions_are_written(self):
        text = "DS 1; 9 INV; L A; P 0 0 8 0 8 8 0 8 0 0 2 2 6 2 6 6 2 6 2 2; DF; C 1; E"
        with read(text, named=True, oriented=True) as layout:
            self.assertEqual(layout.cells(), {"top": 1, 1: 1})
            written = layout.write()
            self.assertIn("9 INV;", written)
            self.assertEqual(layout.close(), written)
        with read(text) as layout:
            plain = layout.write()
        self.assertNotIn("9 INV;", plain)
        self.assertNotEqual(plain, written.replace("9 INV;\n", ""))

    def test_undo_and_redo_by_name(self):
        """Could catch an undo of the newest in place of the named one, and a layout that is written as it was before."""
        with read() as layout:
            one, two = layout.session(), layout.session()
            with one.transaction() as first:
                first.box("M", (0, 0), (1, 1))
            with two.transaction() as second:
                second.box("M", (0, 0), (2, 2))
            both = layout.write()
            layout.undo(first.name)
            self.assertEqual(layout.write(), "DS 1 1 2;\nL M;\nP 0 0 2 0 2 2 0 2;\nDF;\nC 1;\nE\n")
            two.redo(first.name)
            self.assertEqual(layout.write(), both)
            one.undo(second.name)
            self.assertEqual(layout.write(), "DS 1 1 2;\nL M;\nP 0 0 1 0 1 1 0 1;\nDF;\nC 1;\nE\n")
            layout.redo(second.name)
            self.assertEqual(layout.write(), both)
            self.assertEqual((first.name, second.name), ("1.1", "2.1"))

    def test_a_refusal_names_the_transaction(self):
        """Could catch a refusal that is passed over, another number, and a name that is lost."""
        with read() as layout:
            session = layout.session()
            with session.transaction() as first:
                pad = first.box("M", (0, 0), (1, 1))
            with session.transaction() as second:
                second.move(pad, 5, 5)
            with self.assertRaises(MasklayError) as caught:
                layout.undo(first.name)
            refused = caught.exception
            self.assertEqual((refused.number, refused.name, refused.transaction), (23, "Depends", second.name))
            self.assertTrue(str(refused).startswith("fault 23 Depends 1.2: "), str(refused))
            self.assertIn("undo that one first", refused.sentence)
            with self.assertRaises(MasklayError) as caught:
                layout.undo("5.5")
            self.assertEqual((caught.exception.name, caught.exception.transaction), ("NoTxn", None))

    def test_a_stale_commit(self):
        """Could catch a commit whose refusal is lost, and a session that can't go on behind it."""
        with read("L M; B 2 2 0 0; E") as layout:
            one, two = layout.session(), layout.session()
            with self.assertRaises(MasklayError) as caught:
                with one.transaction() as t:
                    t.move("0.0.1", 1, 1)
                    with two.transaction() as u:
                        u.delete("0.0.1")
            self.assertEqual((caught.exception.name, caught.exception.transaction, t.name), ("Stale", u.name, None))
            with one.transaction() as t:
                t.box("N", (0, 0), (1, 1))
            self.assertEqual(t.name, "1.2")

    def test_a_commit_that_stays_open(self):
        """Could catch a session that can't go on, where a commit is refused and its transaction stays open: it has to be cancelled."""
        lines = ["(end);", "(1 1 opened 1);", "(1 2 fault 26 LogFull);", "(1 3 cancelled);", "(1 4 opened 2);"]
        program = fake(
            "[sys.stdin.readline() for _ in range(3)]",
            f"for said in {lines}: line = sys.stdin.readline(); print(said if said[5] != 'c' or 'cancel' in line else '', flush=True)",
            "sys.stdin.read()",
        )
        layout = read(program=program)
        session = layout.session()
        with self.assertRaises(MasklayError) as caught, session.transaction():
            pass
        self.assertEqual(caught.exception.name, "LogFull")
        self.assertEqual(session.step("open"), "opened 2")
        layout.close()

    def test_a_refused_command_changes_nothing(self):
        """Could catch a transaction that ends with a refusal which is caught."""
        with read() as layout:
            with layout.session().transaction() as t:
                with self.assertRaises(MasklayError) as caught:
                    t.box("M", (0, 0), (0, 5))
                self.assertEqual((caught.exception.number, caught.exception.name), (4, "FewPoints"))
                self.assertEqual(t.box("M", (0, 0), (1, 5)), "1.1.1")
            self.assertEqual(t.name, "1.1")

    def test_sessions_are_64(self):
        """Could catch sessions with one number, and a 65th."""
        with read() as layout:
            self.assertEqual([layout.session().number for _ in range(64)], list(range(1, 65)))
            with self.assertRaises(MasklayError) as caught:
                layout.session()
            self.assertEqual(caught.exception.name, "NoSession")
            self.assertEqual(layout.step(64, "open"), "opened 1")

    def test_threads(self):
        """Could catch replies that come to another thread than the one that asked."""
        with read() as layout:

            def draw(session):
                for n in range(1, 11):
                    with session.transaction() as t:
                        made.append((t.box("M", (0, 0), (session.number, n)), f"{session.number}.{n}.1"))

            made = []
            threads = [threading.Thread(target=draw, args=(layout.session(),)) for _ in range(4)]
            for it in threads:
                it.start()
            for it in threads:
                it.join()
            self.assertEqual(len(made), 40)
            for given, wanted in made:
                self.assertEqual(given, wanted)
            layout.close()
            self.assertEqual(sorted(layout.order), sorted([1, 2, 3, 4] * 30))


class Ends(unittest.TestCase):
    """Faults of texts, lines and processes."""

    def test_a_fault_of_the_text(self):
        """Could catch a fault that is found at the first step only, and words of standard error that are lost."""
        with self.assertRaises(TextFault) as caught:
            read("L NM;\nW 10 0 0 40 0; E")
        fault = caught.exception
        self.assertEqual((fault.number, fault.name, fault.offset, fault.status), (3, "Wire", 6, 4))
        self.assertEqual((fault.line, fault.column), (2, 1))
        self.assertIn("line 2 of the CIF text (line 3 of the job), column 1: a wire", fault.said)
        with self.assertRaises(TextFault) as caught:
            rewritten("L NM;\n  W 10 0 0 40 0; E", PROGRAM)
        self.assertEqual((caught.exception.line, caught.exception.column), (2, 3))

    def test_an_interrupt(self):
        """Could catch an interrupt that ends the program, and a reply that is taken for the next step's."""
        wait = "    time.sleep(1) if b'commit' in line else None"
        program = fake(
            "k = 0", "for line in sys.stdin.buffer:",
            "    words = line.split()",
            "    if words[:1] == [b'%history']: print('(end);', flush=True)",
            "    if words[:1] != [b'1']: continue",
            "    k += 1", wait, "    print(f'(1 {k} done);', flush=True)",
        )  # fmt: skip
        with read(program=program) as layout:
            session = layout.session()
            self.assertEqual(session.step("open"), "done")
            # a shell that starts this in the background has it ignored
            self.addCleanup(signal.signal, signal.SIGINT, signal.signal(signal.SIGINT, signal.default_int_handler))
            timer = threading.Timer(0.3, os.kill, (os.getpid(), signal.SIGINT))
            timer.start()
            with self.assertRaises(KeyboardInterrupt):
                session.step("commit")
            self.assertEqual(session.step("open"), "done")

    def test_a_large_text(self):
        """Could catch two processes that wait for each other, where a text is longer than a pipe."""
        boxes = 40_000
        with read(b"L M;" + b"B 2 2 0 0;\n" * boxes + b"E") as layout:
            self.assertEqual(layout.write().count("P -2 -2"), boxes)

    def test_lines_of_the_program(self):
        """Could catch a text, or a word of a step, that the program takes for steps."""
        for text in ("E\n%live\n1 open", "(\n%session 1\n); E", b"(\n%order 1\n); E"):
            with self.assertRaises(ValueError):
                read(text)
        with read() as layout, layout.session().transaction() as t:
            for layer in ("M 0 0 1 1\n1 commit", "m", "", "ABCDEFGHIJKLMNOPQ", "M N"):
                with self.assertRaises(ValueError):
                    t.box(layer, (0, 0), (1, 1))
            for step in ("open\n1 open", "commit\r", "undo\t1.1\x00"):
                with self.assertRaises(ValueError):
                    layout.step(1, step)
            for item in ("1.1", "1.1.1 0 0", "x"):
                with self.assertRaises(ValueError):
                    t.move(item, 1, 1)
            with self.assertRaises(TypeError):
                t.box("M", (0, 0), (1.0, 1))
            self.assertEqual(t.box("M", (0, 0), (1, 1)), "1.1.1")

    def test_a_line_that_is_no_step(self):
        """Could catch an odd line that is counted as a step, or ends the process."""
        with read() as layout:
            session = layout.session()
            with self.assertRaises(StepError):
                session.step("opens")
            with self.assertRaises(StepError), session.transaction() as t:
                t.box("M", (0, 0), (1 << 31, 1))
            with session.transaction() as t:
                pass
            self.assertEqual(t.name, "1.2")

    def test_close(self):
        """Could catch a text at the end that isn't the layout's, an open transaction that is in it, and a use behind it."""
        layout = read()
        session = layout.session()
        with session.transaction() as t:
            t.box("M", (0, 0), (1, 1))
        text = layout.write()
        open_one = session.transaction()
        open_one.open()
        open_one.box("M", (0, 0), (2, 2))
        self.assertEqual(layout.close(), text)
        self.assertEqual(layout.order, [1] * 5)
        self.assertEqual(layout.close(), text)
        with self.assertRaises(ProcessError):
            layout.write()
        with read(text) as again:
            self.assertEqual(again.write(), text)

    def test_workers(self):
        """Could catch a number of workers that the program refuses."""
        for workers in (0, 65):
            with self.assertRaises(ValueError):
                read(workers=workers)

    def test_no_program(self):
        """Could catch a program that isn't there and is waited for."""
        with self.assertRaises(OSError):
            read(program=str(HERE / "no-program"))

    def test_replies_come_at_once(self):
        """Could catch a program that answers late: each reply has to be there before the next line is sent."""
        with read() as layout:
            session, slowest = layout.session(), 0.0
            for _ in range(100):
                begun = time.monotonic()
                with session.transaction() as t:
                    t.box("M", (0, 0), (1, 1))
                slowest = max(slowest, time.monotonic() - begun)
            self.assertLess(slowest, TIMEOUT)

    def test_a_late_program(self):
        """Could catch a client that waits for ever, or takes a late reply for another's."""
        for program in (
            fake("sys.stdin.read()", "print('(end);')"),
            fake("time.sleep(60)"),
            fake("print('(end);', flush=True)", "sys.stdin.read()"),
        ):
            begun = time.monotonic()
            with self.assertRaises(Late):
                with read(b"L M;" + b"B 2 2 0 0;\n" * 40_000 + b"E", program=program, timeout=1.0) as layout:
                    with layout.session().transaction():
                        pass
            self.assertLess(time.monotonic() - begun, 20)

    def test_a_dead_program(self):
        """Could catch an end of the process that is taken for a reply, and words of it that are lost."""
        ready = "[sys.stdin.readline() for _ in range(4)]; print('(end);', flush=True); sys.stdin.readline()"
        for words, kind, status in (
            ("sys.stderr.write('so\\n'); sys.exit(5)", ProcessError, 5),
            ("sys.stderr.write('so\\n'); print('out of memory'); sys.exit(6)", OutOfMemory, 6),
            ("sys.stderr.write('so\\n'); print('(2 1 opened 1);'); sys.exit(0)", ProcessError, None),
            ("sys.stderr.write('so\\n'); print('(1 2 opened 1);'); sys.exit(0)", ProcessError, None),
        ):
            layout = read(program=fake(ready, words))
            with self.assertRaises(kind) as caught:
                layout.session().step("open")
            if status is not None:
                self.assertEqual((caught.exception.status, caught.exception.said), (status, "so\n"))
                with self.assertRaises(kind):
                    layout.close()
        with self.assertRaises(ProcessError):
            read(program=fake("pass"))


def run_example(name, *words):
    """Returns what an example writes, to standard output and to standard error."""
    path = {**os.environ, "PYTHONPATH": str(HERE.parent / "src"), "PYTHONDONTWRITEBYTECODE": "1"}
    command = [sys.executable, str(HERE.parent / "examples" / name), *words]
    done = subprocess.run(command, env=path, capture_output=True, timeout=60)
    if done.returncode != 0:
        raise AssertionError(done.stderr.decode())
    return done.stdout.decode(), done.stderr.decode()


def area(polygon):
    """Returns the area that a directed path goes round."""
    return abs(sum(x * v - u * y for (x, y), (u, v) in zip(polygon, polygon[1:] + polygon[:1]))) // 2


class Example(unittest.TestCase):
    """The examples of the documents."""

    def test_pads(self):
        """Could catch an example that fails, and one that writes another text than the one beside it."""
        text, said = run_example("pads.py", PROGRAM)
        self.assertEqual(text, (HERE.parent / "examples/pads.cif").read_text(encoding="ascii"))
        self.assertEqual(said, "9 frames, 1.4.1 to 1.4.9, by transaction 1.4\nundo 1.3: Depends 1.4\n")

    def test_mask(self):
        """Could catch an example that fails, a frame or a plate that isn't cut out, and a via that is lost, or left above a cut-out. Of
        9 by 6 vias, those at x 80 to 160 and y 80 and 120 are above one cut-out, those at x 160 to 280 and y 160 and 200 above the
        other."""
        text, said = run_example("mask.py", PROGRAM)
        drawn = {layer: [area(it) for it in polygons_of(text, layer, PROGRAM)] for layer in ("FRAME", "PLATE", "VIA")}
        self.assertEqual(drawn["FRAME"], [(400 * 280 - 360 * 240) * um(1) ** 2])
        self.assertEqual(drawn["PLATE"], [(360 * 240 - 120 * 80 - 140 * 90 + 30 * 10) * um(1) ** 2])
        self.assertEqual(drawn["VIA"], [um(10) ** 2] * (9 * 6 - 3 * 2 - 4 * 2))
        self.assertEqual(said, "40 vias\n")

    def test_pad_ring(self):
        """Could catch an example that fails, a side that is turned or shifted wrongly, and distances in another unit."""
        text, _ = run_example("pad_ring.py", "--pads", "2", "--pitch", "10", "--pad", "4", "--opening", "2", "--program", PROGRAM)
        places = {(sum(x for x, _ in it) // 4, sum(y for _, y in it) // 4) for it in polygons_of(text, "CG", PROGRAM)}
        sides = [(x, y) for x in (-1000, 1000) for y in (-3000, 3000)]
        self.assertEqual(places, {*sides, *((y, x) for x, y in sides)})
        self.assertEqual([area(it) for it in polygons_of(text, "CM", PROGRAM)], [800**2] * 8)
        with self.assertRaises(AssertionError):
            run_example("pad_ring.py", "--pads", "2", "--pad", "200", "--program", PROGRAM)


class Journals(unittest.TestCase):
    """Layouts whose process dies, and what is asked of them."""

    def setUp(self):
        folder = tempfile.TemporaryDirectory()
        self.addCleanup(folder.cleanup)
        self.path = Path(folder.name) / "chip.journal"

    def recovered(self, **options):
        """Returns the layout of the journal."""
        return Layout.recover(self.path, PROGRAM, timeout=TIMEOUT, **options)

    def test_a_process_that_dies(self):
        """Could catch a step that is with the process alone, a transaction that loses its name, and one that stays open."""
        layout = read("L M; B 2 2 0 0; E", journal=self.path)
        one, two = layout.session(), layout.session()
        with one.transaction() as t:
            t.move("0.0.1", 5, 5)
        two.step("open")
        two.step("box top M 0 0 9 9")
        before = layout.write()
        layout._process._child.kill()
        with self.assertRaises(ProcessError):
            one.step("open")
        layout._process.kill()
        with self.recovered(sync=True) as layout:
            self.assertEqual(layout.write(), before)
            self.assertEqual(layout.history(), [Committed("1.1", True)])
            layout.undo(t.name)
            self.assertNotEqual(layout.write(), before)
            with layout.session().transaction() as t:
                t.delete("0.0.1")
            self.assertEqual(t.name, "1.2")
        with self.recovered() as layout:
            self.assertEqual(layout.history(), [Committed("1.1", False), Committed("1.2", True)])
            self.assertEqual(layout.cells(), {"top": 0})

    def test_journals_that_are_refused(self):
        """Could catch a journal that is written over, one that two processes have, and a file that is changed though it is none."""
        with read(journal=self.path), self.assertRaises(ProcessError) as caught:
            self.recovered()
        self.assertIn("goes on", caught.exception.said)
        with self.assertRaises(FileExistsError):
            read(journal=self.path)
        other = b"DS 1;\nDF;\nE\n"
        self.path.write_bytes(other)
        with self.assertRaises(ProcessError) as caught:
            self.recovered()
        self.assertIn("isn't a journal", caught.exception.said)
        self.assertEqual(self.path.read_bytes(), other)

    def test_questions(self):
        """Could catch an answer that is taken apart wrongly, that is of open transactions, or that is read beyond its end."""
        text = "DS 1; 9 INV; L A; B 2 2 1 1; DF; (DS 8; 9 NONE; DF;); DS 2 2 1; 9 CELL_2; C 1 T 3 4; DF; C 2; E"
        with read(text) as layout:
            self.assertEqual(layout.names, {"INV": 1, "CELL_2": 2})
            self.assertEqual(layout.cells(), {"top": 1, 1: 1, 2: 1})
            square = Shape(1, "A", (((0, 0), (4, 0), (4, 4), (0, 4)),))
            self.assertEqual(layout.items("INV"), {"0.0.1": square})
            self.assertEqual(layout.items(2), {"0.0.2": Placed(2, 1, "r0", (12, 16))})
            self.assertEqual(layout.look("0.0.1"), square)
            with layout.session().transaction() as t:
                box = t.box("B", (0, 0), (1, 2), cell="INV")
                t.move("0.0.1", 1, 0)
                t.make_cell(7)
                self.assertEqual(layout.cells()[1], 1)
            wanted = [Change("changed", item="0.0.1"), Change("made", item=box), Change("made", symbol=7)]
            self.assertEqual(layout.changes(t.name), wanted)
            layout.undo(t.name)
            self.assertEqual(layout.history(), [Committed(t.name, False)])
            self.assertEqual(layout.changes(t.name), wanted)
            for call, refused in (
                (lambda: layout.look(box), "NoItem"), (lambda: layout.items(7), "NoCell"), (lambda: layout.changes("5.5"), "NoTxn"),
            ):  # fmt: skip
                with self.assertRaises(MasklayError) as caught:
                    call()
                self.assertEqual(caught.exception.name, refused)
            with self.assertRaises(KeyError):
                layout.items("NONE")


class Units(unittest.TestCase):
    """Micrometres."""

    def test_um(self):
        """Could catch another unit, a float's rounding that is taken for a fraction of a unit, and a fraction that is dropped."""
        self.assertEqual([um(1), um(0.15), um(-2.005), um("1/8"), um(0.1 + 0.2)], [200, 30, -401, 25, 60])
        for x in (0.001, 1 / 3, "0.0049"):
            with self.assertRaises(ValueError):
                um(x)


if __name__ == "__main__":
    unittest.main()
