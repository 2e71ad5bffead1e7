"""Tests of the package, run by tests/python: what it answers on the published tables, what it refuses, and that it is as the header says."""

import ctypes
import doctest
import os
import pathlib
import pickle
import re
import shutil
import subprocess
import sys
import tempfile
import unittest

import jestrunas
from jestrunas import Accepted, Reason, Refusal

ROOT = pathlib.Path(__file__).resolve().parents[2]
DESIGNS = ROOT / "designs"
ROWS = ROOT / "crates" / "bench_designs"
PACKAGE = pathlib.Path(jestrunas.__file__).resolve().parent
NAME = "libjestrunas.so." + jestrunas.__version__.rpartition(".")[0]

D = (DESIGNS / "d.bin").read_bytes()
BOX3 = [0, 1, 2, 3, 4, 5, 7, 6]
UNEVEN = [0, 1, 2, 4, 3, 6, 7, 5]


def design(name):
    return (DESIGNS / name).read_bytes()


def numbers(file):
    """The three numbers of a verdict."""
    try:
        return [0, jestrunas.judge(file).stages, 0]
    except Refusal as refusal:
        return [int(refusal.reason), refusal.place, refusal.component]


class Rows(unittest.TestCase):
    """The published tables, and the answers of the second implementation (rust/README.md)."""

    def answer(self, line):
        fields = line.split()
        if fields[0] == "file":
            return ["verdict", *numbers(bytes.fromhex(fields[1]))]
        m, s = int(fields[0]), int(fields[1])
        digits = 1 if m <= 4 else 2
        table = [int(fields[2][i : i + digits], 16) for i in range(0, len(fields[2]), digits)]
        placement = list(map(int, fields[3])) if len(fields) == 4 else None
        try:
            file = jestrunas.produce(m, s, table, placement)
        except Refusal as refusal:
            self.assertIsNone(refusal.place)
            return ["produce", int(refusal.reason), 0]
        return ["produce", 0, len(file), "verdict", *numbers(file)]

    def test_rows(self):
        lines = (ROWS / "stdin").read_text().splitlines()
        due = (ROWS / "stdout").read_text().splitlines()
        self.assertEqual(len(lines) + 1, len(due))
        tried = 0
        for number, line in enumerate(lines):
            if line.split()[1] != "5":  # the tables in five shares take minutes
                answer = " ".join(map(str, [number + 1, *self.answer(line)]))
                self.assertEqual(answer, due[number], line)
                tried += 1
        self.assertGreater(tried, 600)


class Samples(unittest.TestCase):
    def test_verdicts(self):
        lines = (DESIGNS / "verdicts.txt").read_text().splitlines()
        self.assertGreater(len(lines), 10)
        for line in lines:
            name, *due = line.split()
            self.assertEqual(numbers(design(name)), list(map(int, due)), name)

    def test_trials(self):
        for line in (DESIGNS / "trials.txt").read_text().splitlines():
            name, *due = line.split()
            try:
                trials = jestrunas.judge(design(name)).trials
            except Refusal as refusal:
                trials = refusal.trials
            forecast = jestrunas.forecast(design(name)[:7])
            self.assertEqual([forecast.workspace, forecast.trials, trials], list(map(int, due)), name)

    def test_a_lent_workspace(self):
        workspace = bytearray([7] * 600)
        self.assertEqual(jestrunas.judge(design("present.bin"), workspace), Accepted(2, 16_384))
        self.assertEqual(workspace, bytes(512) + bytes([7] * 88))
        for short in [bytearray(), bytearray([7] * 511)]:
            before = bytes(short)
            with self.assertRaises(Refusal) as refused:
                jestrunas.judge(design("present.bin"), short)
            self.assertEqual(refused.exception.reason, Reason.WORKSPACE_TOO_SMALL)
            self.assertEqual(short, before)
        with self.assertRaises(TypeError):
            jestrunas.judge(D, b"no one may write here")

    def test_runs_give_s_of_what_is_shared(self):
        file = design("present.bin")
        box = [0xC, 5, 6, 0xB, 9, 0, 0xA, 0xD, 3, 0xE, 0xF, 8, 4, 7, 1, 2]
        seen = set()
        for sharing in range(16**3):
            shares = [sharing % 16, sharing // 16 % 16, sharing // 256]
            given = jestrunas.run(file, shares)
            self.assertEqual(given[0] ^ given[1] ^ given[2], box[shares[0] ^ shares[1] ^ shares[2]])
            seen.add(tuple(given))
        self.assertEqual(len(seen), 16**3)

    def test_five_shares(self):
        file = jestrunas.produce(2, 5, [0, 1, 3, 2])
        given = jestrunas.run(file, [3, 2, 1, 0, 2])
        self.assertEqual(len(given), 5)
        self.assertEqual(given[0] ^ given[1] ^ given[2] ^ given[3] ^ given[4], 3)

    def test_joining(self):
        present = jestrunas.join(design("present_g.bin"), design("present_f.bin"))
        self.assertEqual(present, design("present.bin"))
        self.assertEqual(jestrunas.judge(jestrunas.join(present, present)), Accepted(4, 32_768))

    def test_transform(self):
        self.assertEqual(jestrunas.transform(3, BOX3), [0, 1, 2, 0, 4, 0, 1, 0])
        self.assertEqual(jestrunas.transform(3, [0, 1, 2, 0, 4, 0, 1, 0]), BOX3)

    def test_what_is_read(self):
        self.assertIsNone(jestrunas.read(D))
        self.assertIsNone(jestrunas.read(bytearray(D)))
        self.assertIsNone(jestrunas.read(list(D)))

    def test_what_is_produced(self):
        self.assertEqual(jestrunas.produce(3, 3, BOX3), design("box3.bin"))
        self.assertEqual(jestrunas.produce(3, 3, bytes(BOX3), jestrunas.published_placement(3)), design("box3.bin"))
        self.assertEqual(jestrunas.published_placement(2), b"")


class Whole:
    """A number of another library, as an Integer of SageMath."""

    def __init__(self, value):
        self.value = value

    def __index__(self):
        return self.value


class SBox:
    """An S-box as SageMath has it: it yields its entries, and its length is m."""

    def __init__(self, table):
        self.table = table

    def __iter__(self):
        return map(Whole, self.table)

    def __len__(self):
        return len(self.table).bit_length() - 1


class Boxes(unittest.TestCase):
    def test_a_list_gets_a_verdict(self):
        self.assertEqual(jestrunas.judge_box(BOX3, 3), Accepted(1, 1024))
        with self.assertRaises(Refusal) as refused:
            jestrunas.judge_box(UNEVEN, 3)
        self.assertEqual((refused.exception.reason, refused.exception.place), (Reason.NOT_UNIFORM, 1))

    def test_a_placement(self):
        placement = bytearray(jestrunas.published_placement(4))
        placement[2] = 3
        self.assertEqual(jestrunas.judge_box(UNEVEN, 4, placement), Accepted(1, 8192))

    def test_a_box_of_another_library(self):
        self.assertEqual(jestrunas.judge_box(SBox(BOX3), Whole(3)), Accepted(1, 1024))
        self.assertEqual(jestrunas.transform(Whole(3), SBox(BOX3)), [0, 1, 2, 0, 4, 0, 1, 0])

    def test_a_box_of_another_size(self):
        for box, reason in [([], 4), ([0], 4), ([0] * 128, 4), ([0, 1, 2], 3), ([0, 1, 2, 4], 5), ([0, 0], 8)]:
            with self.assertRaises(Refusal) as refused:
                jestrunas.judge_box(box, 3)
            self.assertEqual(refused.exception.reason, reason, box)


class Refusals(unittest.TestCase):
    def refused(self, words, call, *arguments):
        with self.assertRaises(Refusal) as raised:
            call(*arguments)
        self.assertEqual(str(raised.exception), words)
        return raised.exception

    def with_box(self, box):
        return D[:11] + bytes(box) + D[13:]

    def test_each_reason(self):
        cut = self.refused("1 35 0: the record at byte 35 is cut short", jestrunas.judge, D[:40])
        self.assertEqual((cut.reason, cut.place, cut.component, cut.trials), (1, 35, 0, 0))
        self.refused("1 35 0: the record at byte 35 is cut short", jestrunas.read, D[:40])
        self.refused("2 0 0: the kind of the record at byte 0 is not the one due", jestrunas.judge, bytes(4))
        self.refused("3 0 0: the length of the record at byte 0 is not the one due", jestrunas.read, [2, 0, 1, 0])
        self.refused("4 0 0: a number of the head breaks a limit", jestrunas.read, [3, 0, 1, 0, 5, 5, 1])
        self.refused("5 7 0: the table at byte 7 has an entry that is 2^m or more", jestrunas.read, self.with_box([0, 2]))
        wrong = D[:23] + bytes([8]) + D[24:]
        self.refused("6 19 0: the list at byte 19 has a term beyond m * s or one that does not rise", jestrunas.read, wrong)
        self.refused("7 47 0: bytes follow the end, from byte 47", jestrunas.judge, D + b"x")
        self.refused("8 0 0: the box repeats an entry", jestrunas.judge, self.with_box([0, 0]))
        self.refused("9 0 0: the workspace is too small", jestrunas.judge, D, bytearray())
        self.refused("10 0 0: the chain of tables is not S", jestrunas.judge, self.with_box([1, 0]))
        last_empty = D[:35] + bytes([0, 0, 3, 0, 0, 0, 4, 0])
        self.refused("12 1 0: stage 1 is not correct", jestrunas.judge, last_empty)
        leaks = self.refused("13 1 2: component 2 of stage 1 depends on every share", jestrunas.judge, design("leaks.bin"))
        self.assertEqual((leaks.reason, leaks.place, leaks.component, leaks.trials), (Reason.NOT_NON_COMPLETE, 1, 2, 512))
        self.refused("14 1 0: stage 1 is not uniform", jestrunas.judge, design("uneven.bin"))
        self.refused("15: a share is 2^m or more", jestrunas.run, D, [2, 0, 0])
        self.refused("16: the degree is the number of shares or more", jestrunas.judge_box, [*range(14), 15, 14], 3)
        self.refused("19: the widths or the share counts of the two designs differ", jestrunas.join, D, design("box3.bin"))
        three = jestrunas.join(D, jestrunas.join(D, D))
        self.refused("20: the two designs have more than four stages together", jestrunas.join, three, jestrunas.join(D, D))
        outside = "21: the placement does not load: its length is not 2^s - 2, or a byte is not a component outside its set"
        self.refused(outside, jestrunas.produce, 3, 3, BOX3, [1, 1, 3, 2, 2, 1])

    def test_what_has_no_place(self):
        for refusal in [
            self.refused("1: a record is cut short", jestrunas.forecast, b""),
            self.refused("2: a record's kind is not the one due", jestrunas.run, bytes(4), [0, 0, 0]),
            self.refused("3: a length is not the one due", jestrunas.transform, 3, [0, 1]),
            self.refused("4: a number breaks a limit", jestrunas.produce, 5, 5, range(32)),
            self.refused("5: an entry is 2^m or more", jestrunas.transform, 1, [0, 2]),
            self.refused("7: bytes follow the end", jestrunas.join, D, D + b"x"),
            self.refused("8: the box repeats an entry", jestrunas.produce, 1, 3, [1, 1]),
        ]:
            self.assertIsNone(refusal.place)
            self.assertIsNone(refusal.component)

    def test_wrong_use(self):
        for call, arguments in [
            (jestrunas.judge, ["designs/d.bin"]),
            (jestrunas.judge, [None]),
            (jestrunas.judge, [5]),
            (jestrunas.judge_box, ["01234576", 3]),
            (jestrunas.judge_box, [[0.0, 1.0], 3]),
            (jestrunas.produce, [3, 3.0, BOX3]),
        ]:
            self.assertRaises(TypeError, call, *arguments)
        for call, arguments in [
            (jestrunas.judge_box, [[0, 256], 3]),
            (jestrunas.judge_box, [[0, -1], 3]),
            (jestrunas.produce, [3, -1, BOX3]),
            (jestrunas.produce, [2**64 + 3, 3, BOX3]),
            (jestrunas.run, [D, [0, 0]]),
            (jestrunas.run, [D, [0, 0, 0, 0]]),
            (jestrunas.run, [D, [0, 0, 0, 0, 0, 0]]),
        ]:
            self.assertRaises(ValueError, call, *arguments)

    def test_a_refusal_is_carried_to_another_process(self):
        with self.assertRaises(Refusal) as raised:
            jestrunas.judge(design("leaks.bin"))
        again = pickle.loads(pickle.dumps(raised.exception))
        self.assertEqual((str(again), again.trials), (str(raised.exception), 512))


class Header(unittest.TestCase):
    """The package says what include/jestrunas.h says."""

    @classmethod
    def setUpClass(cls):
        """What a C program prints of the header: the version, then names with numbers."""
        cls.header = (ROOT / "include" / "jestrunas.h").read_text()
        lines = ["puts(JESTRUNAS_VERSION);"]

        def say(name, value):
            lines.append(f'printf("{name} %zu\\n", (size_t)({value}));')

        for name in re.findall(r"#define (JESTRUNAS_[A-Z_]+) +[0-9]", cls.header):
            say(name, name)
        for struct, (name, fields) in STRUCTS.items():
            say(struct, f"sizeof({struct})")
            for field in fields:
                say(f"{struct}.{field}", f"offsetof({struct}, {field})")
        for s in [3, 4, 5]:
            say(f"placement_{s}", f"sizeof jestrunas_placement_{s}")
            for i in range(2**s - 2):
                say(f"placement_{s}.{i}", f"jestrunas_placement_{s}[{i}]")
        program = "#include <stdio.h>\n#include <jestrunas.h>\nint main(void) {\n" + "\n".join(lines) + "\nreturn 0;\n}\n"
        with tempfile.TemporaryDirectory() as folder:
            source, binary = pathlib.Path(folder, "header.c"), pathlib.Path(folder, "header")
            source.write_text(program)
            subprocess.run(["cc", f"-I{ROOT / 'include'}", str(source), "-o", str(binary)], check=True)
            printed = subprocess.run([str(binary)], check=True, capture_output=True, text=True).stdout.splitlines()
        cls.version = printed[0]
        cls.says = {name: int(number) for name, number in (line.split() for line in printed[1:])}

    def test_version(self):
        self.assertEqual(jestrunas.__version__, self.version)

    def test_structs(self):
        self.assertEqual(set(STRUCTS), set(re.findall(r"^} (jestrunas_[a-z]+_t);", self.header, re.M)))
        for struct, (name, fields) in STRUCTS.items():
            held = getattr(jestrunas, name)
            self.assertEqual(ctypes.sizeof(held), self.says[struct], struct)
            self.assertEqual([field for field, _ in held._fields_], fields, struct)
            body = re.search(r"typedef struct \{([^}]*)\} " + struct + ";", self.header).group(1)
            self.assertEqual(re.findall(r"(\w+)(?:\[\w+\])?;", body), fields, struct)
            for field in fields:
                self.assertEqual(getattr(held, field).offset, self.says[f"{struct}.{field}"], f"{struct}.{field}")

    def test_reasons(self):
        held = {name.removeprefix("JESTRUNAS_"): number for name, number in self.says.items() if name.startswith("JESTRUNAS_")}
        self.assertEqual(jestrunas._PRODUCED_MAX, held["PRODUCED_MAX"])
        reasons = {name: number for name, number in held.items() if number and not name.endswith(("_MAX", "_MIN"))}
        self.assertEqual({reason.name: int(reason) for reason in Reason}, reasons)
        self.assertEqual(set(jestrunas._WORDS), set(Reason))

    def test_placements(self):
        for s in [3, 4, 5]:
            size = self.says[f"placement_{s}"]
            due = [self.says[f"placement_{s}.{i}"] for i in range(size)]
            self.assertEqual(list(jestrunas.published_placement(s)), due)

    def test_functions(self):
        declared = re.findall(r"^[a-z_]+ jestrunas_([a-z_]+)\(", self.header, re.M)
        self.assertEqual(set(jestrunas._FUNCTIONS), set(declared))


STRUCTS = {
    "jestrunas_verdict_t": ("_Verdict", ["reason", "place", "component"]),
    "jestrunas_judged_t": ("_Judged", ["reason", "place", "component", "trials"]),
    "jestrunas_forecast_t": ("_Forecast", ["reason", "workspace", "trials"]),
    "jestrunas_shares_t": ("_Shares", ["share"]),
    "jestrunas_run_t": ("_Run", ["reason", "shares"]),
    "jestrunas_produced_t": ("_Produced", ["reason", "length"]),
}


class Places(unittest.TestCase):
    """Where the shared library is looked for."""

    def setUp(self):
        folder = tempfile.TemporaryDirectory()
        self.addCleanup(folder.cleanup)
        self.folder = pathlib.Path(folder.name)
        shutil.copytree(PACKAGE, self.folder / "jestrunas", ignore=shutil.ignore_patterns("__pycache__", "*.so*"))
        self.library = pathlib.Path(jestrunas._library._name)
        if not self.library.is_absolute():
            self.library = ROOT / "target" / "sharedlib" / NAME

    def loaded(self, **variables):
        """What `import jestrunas` of the copied package loads, or what it says."""
        environment = {"PATH": os.environ["PATH"], "PYTHONPATH": str(self.folder), **variables}
        code = "import jestrunas; print(jestrunas.__file__); print(jestrunas._library._name)"
        done = subprocess.run([sys.executable, "-c", code], env=environment, cwd=self.folder, capture_output=True, text=True)
        if done.returncode:
            return done.stderr.splitlines()[-1]
        module, name = done.stdout.splitlines()
        self.assertEqual(pathlib.Path(module).parent, self.folder / "jestrunas")
        return name

    def test_nowhere(self):
        for variables in [{}, {"JESTRUNAS_LIB_DIR": "/nowhere"}]:
            said = self.loaded(**variables)
            self.assertRegex(said, "^ImportError: the library of Jestrunas cannot be loaded")
            self.assertIn("set JESTRUNAS_LIB_DIR to the folder of " + NAME, said)

    def test_the_variable(self):
        lent = self.folder / "lent"
        lent.mkdir()
        shutil.copy(self.library, lent / NAME)
        self.assertEqual(self.loaded(JESTRUNAS_LIB_DIR=str(lent)), str(lent / NAME))
        # it comes first, and where it is wrong no other is taken
        shutil.copy(self.library, self.folder / "jestrunas" / NAME)
        self.assertEqual(self.loaded(JESTRUNAS_LIB_DIR=str(lent)), str(lent / NAME))
        self.assertIn("cannot be loaded", self.loaded(JESTRUNAS_LIB_DIR=str(self.folder)))

    def test_beside_the_package(self):
        shutil.copy(self.library, self.folder / "jestrunas" / NAME)
        self.assertEqual(self.loaded(), str(self.folder / "jestrunas" / NAME))

    def test_the_system(self):
        system = self.folder / "system"
        system.mkdir()
        shutil.copy(self.library, system / NAME)
        self.assertEqual(self.loaded(LD_LIBRARY_PATH=str(system)), NAME)


class Pages(unittest.TestCase):
    def test_docstrings(self):
        tried = doctest.testmod(jestrunas)
        self.assertEqual(tried.failed, 0)
        self.assertGreater(tried.attempted, 2)
        for name in jestrunas.__all__:
            self.assertTrue(getattr(jestrunas, name).__doc__, name)

    def test_readme(self):
        before = os.getcwd()
        self.addCleanup(os.chdir, before)
        os.chdir(ROOT)
        tried = doctest.testfile(str(ROOT / "python" / "README.md"), module_relative=False, encoding="utf-8")
        self.assertEqual(tried.failed, 0)
        self.assertGreater(tried.attempted, 8)


if __name__ == "__main__":
    unittest.main()
