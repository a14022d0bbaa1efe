"""What is written about the calls: the words of refusals, the examples of the module and of README.md, and the example
program. README.md says how to run the tests."""

import doctest
import os
import re
import subprocess
import sys
import unittest
from pathlib import Path

import danivomel
from danivomel import REASONS, Refused

FOLDER = Path(__file__).resolve().parent
ROOT = FOLDER.parents[1]
README = (FOLDER / "README.md").read_text("utf-8")


def load_tests(loader, tests, pattern):
    """Adds the examples of the module's docstrings, each as a test."""
    tests.addTests(doctest.DocTestSuite(danivomel))
    return tests


def python(*words):
    """What Python does with some words, with the module on its path."""
    environment = {**os.environ, "PYTHONPATH": str(FOLDER)}
    command = [sys.executable, "-B", *map(str, words)]
    return subprocess.run(command, env=environment, capture_output=True, text=True, cwd=ROOT)


class Words(unittest.TestCase):
    """The words of refusals."""

    def test_as_in_the_package_for_rust(self):
        source = (ROOT / "bindings" / "rust" / "src" / "refusal.rs").read_text("utf-8")
        source = source.partition("pub fn reason")[2].partition("pub fn")[0]
        arms = re.findall(r'^ +(\d+) => "(.*)",$', source, re.MULTILINE)
        self.assertEqual(REASONS, {int(number): words for number, words in arms})
        self.assertEqual(list(REASONS), list(range(1, 16)))
        self.assertIn(f'_ => "{Refused(16, 0).reason}",', source)

    def test_in_the_rows_of_the_guide(self):
        guide = (ROOT / "docs" / "USER-GUIDE.md").read_text("utf-8")
        rows = re.findall(r"^\| (\d+) \| ([^|]+) \|", guide, re.MULTILINE)
        for number in range(2, 16):
            with self.subTest(number=number):
                self.assertIn((str(number), REASONS[number]), rows)

    def test_with_number_place_and_passes(self):
        for refusal, printed in [
            (Refused(10, 0), "refused 10: no unit line at all"),
            (Refused(9, 3), "refused 9 at line 3: a unit twice in one group"),
            (Refused(4, 2), "refused 4 at line or unit 2: a number is beyond its range"),
            (Refused(7, 2), f"refused 7 at line or unit 2: {REASONS[7]}"),
            (Refused(11, 1, 3), f"refused 11 at group 1: {REASONS[11]} (in pass 3)"),
            (Refused(12, 0), "refused 12: the total can be made, but every way breaks a limit"),
        ]:
            self.assertEqual(str(refusal), printed)


class Examples(unittest.TestCase):
    """The examples of the module, of README.md and of examples/."""

    def test_every_call_has_an_example(self):
        for name in ("level", "narrow", "read", "settle", "report", "write"):
            self.assertIn(">>> ", getattr(danivomel, name).__doc__)

    def test_readme(self):
        code, = re.findall(r"```python\n(.*?)```", README, re.DOTALL)
        printed, = re.findall(r"```text\n(.*?)```", README, re.DOTALL)
        said = python("-c", code)
        self.assertEqual((said.stdout, said.stderr, said.returncode), (printed, "", 0))
        first, refused = re.search(r"With `(.+)` in the first line it prints\n`(.+)`", README).groups()
        said = python("-c", code.replace("(unit 0 10)", first, 1))
        self.assertEqual((said.stdout, said.stderr, said.returncode), ("", f"{refused}\n", 1))

    def test_evening(self):
        program, job = FOLDER / "examples" / "evening.py", "examples/evening-before.job"
        right = python(program, job, "4", "20000")
        expected = (ROOT / "examples" / "evening.txt").read_text("utf-8")
        self.assertEqual((right.stdout, right.stderr, right.returncode), (expected, "", 0))
        for words in [
            [], [job, "4"], [job, "4", "20000", "5"], ["examples/none.job", "4", "20000"], ["examples", "4", "20000"],
            [job, "0", "20000"], [job, "7", "20000"], [job, "four", "20000"], [job, "4", "many"], [job, "4", "-1"],
            ["examples/refused/09-twice.job", "1", "1"], ["examples/refused/11-total.job", "1", "1"],
        ]:
            with self.subTest(words=words):
                wrong = python(program, *words)
                self.assertEqual((wrong.stdout, wrong.stderr.count("\n"), wrong.returncode), ("", 1, 1))
                self.assertTrue(wrong.stderr.startswith("evening: "))


if __name__ == "__main__":
    unittest.main()
