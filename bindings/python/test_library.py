"""The library: what tools/shared makes, and where the module finds it. README.md says how to run the tests."""

import os
import re
import shutil
import subprocess
import sys
import tempfile
import unittest
from pathlib import Path

ROOT = Path(__file__).resolve().parents[2]
ARCHIVE = ROOT / "target" / "staticlib" / "libplanner.a"
MODULE = ROOT / "bindings" / "python" / "danivomel.py"
NAME = "libdanivomel.so"


def run(*words, **changed):
    """What a command does, with some of the environment changed; where the library is, only these changes say."""
    kept = {name: value for name, value in os.environ.items() if name not in ("DANIVOMEL_LIBRARY", "PYTHONPATH")}
    environment = {**kept, **{name: str(value) for name, value in changed.items()}}
    return subprocess.run([str(word) for word in words], env=environment, capture_output=True, text=True)


class Folder(unittest.TestCase):
    """A folder of its own for each test."""

    def setUp(self):
        folder = tempfile.TemporaryDirectory()
        self.addCleanup(folder.cleanup)
        self.folder = Path(folder.name).resolve()

    def copied(self, source, *parts):
        """A copy of a file, at a path in the folder."""
        path = self.folder.joinpath(*parts)
        path.parent.mkdir(parents=True, exist_ok=True)
        shutil.copy(source, path)
        return path


class Made(Folder):
    """The script tools/shared, in a folder with nothing but what it needs."""

    def setUp(self):
        super().setUp()
        self.script = self.copied(ROOT / "tools" / "shared", "tools", "shared")
        self.copied(ROOT / "tools" / "need", "tools", "need")
        self.library = self.folder / "target" / "shared" / NAME

    def archive(self):
        """Puts the planner's archive into its place."""
        return self.copied(ARCHIVE, "target", "staticlib", "libplanner.a")

    def test_the_six_calls_and_nothing_else_can_be_seen(self):
        self.archive()
        self.assertEqual(run(self.script).returncode, 0)
        header = (ROOT / "include" / "danivomel.h").read_text("utf-8")
        calls = re.findall(r"^danivomel_\w+ (danivomel_\w+)\($", header, re.MULTILINE)
        self.assertEqual(len(calls), 6)
        seen = run("nm", "-D", "--defined-only", self.library).stdout
        self.assertEqual([line.split()[-1] for line in seen.splitlines()], sorted(calls))

    def test_made_anew_only_where_the_archive_is_newer(self):
        archive = self.archive()
        os.utime(archive, (1, 1))
        os.utime(self.script, (1, 1))
        self.assertEqual(run(self.script).stdout, f"target/shared/{NAME} made\n")
        self.assertEqual(run(self.script).stdout, f"target/shared/{NAME} is there\n")
        os.utime(self.library, (2, 2))
        self.assertEqual(run(self.script).stdout, f"target/shared/{NAME} is there\n")
        os.utime(archive, (3, 3))
        self.assertEqual(run(self.script).stdout, f"target/shared/{NAME} made\n")
        self.assertEqual([path.name for path in self.library.parent.iterdir()], [NAME])

    def test_no_archive(self):
        said = run(self.script)
        self.assertEqual((said.returncode, said.stdout, said.stderr.count("\n")), (2, "", 1))
        self.assertIn("tools/prove staticlib planner", said.stderr)

    def test_archive_without_the_calls(self):
        self.archive().write_bytes(b"!<arch>\n")
        self.assertNotEqual(run(self.script).returncode, 0)
        self.assertEqual(list(self.library.parent.iterdir()), [])

    def test_words_that_it_does_not_take(self):
        said = run(self.script, "planner", "again")
        self.assertEqual((said.returncode, said.stdout), (2, ""))
        self.assertEqual(said.stderr, "shared: it takes no words, not 'planner again'\n")


class Found(Folder):
    """Where the module looks for the library."""

    def setUp(self):
        super().setUp()
        self.made = ROOT / "target" / "shared" / NAME
        self.assertTrue(self.made.is_file(), "tools/shared makes the library")

    def found(self, module, **changed):
        """The library that a module loads."""
        words = "import danivomel; print(danivomel._LIBRARY._name); danivomel.level([1], [2], None, 2)"
        said = run(sys.executable, "-B", "-c", words, PYTHONPATH=module.parent, **changed)
        self.assertEqual((said.returncode, said.stderr), (0, ""))
        return said.stdout.strip()

    def missed(self, module, **changed):
        """The error of a module that finds no library: one line."""
        said = run(sys.executable, "-B", "-c", "import danivomel", PYTHONPATH=module.parent, **changed)
        line = said.stderr.splitlines()[-1]
        self.assertEqual(said.returncode, 1)
        self.assertTrue(line.startswith("ImportError: the planner's library cannot be loaded: "), said.stderr)
        self.assertIn("make install PREFIX=..", line)
        return line

    def test_in_the_repository(self):
        self.assertEqual(self.found(MODULE), str(self.made))

    def test_as_installed(self):
        library = self.copied(self.made, "lib", NAME)
        module = self.copied(MODULE, "lib", "python", "danivomel.py")
        self.assertEqual(self.found(module), str(library))
        named = self.copied(self.made, "named.so")
        self.assertEqual(self.found(module, DANIVOMEL_LIBRARY=named), str(named))
        self.assertEqual(self.found(module, DANIVOMEL_LIBRARY=""), str(library))

    def test_by_a_link_to_the_module(self):
        module = self.folder / "danivomel.py"
        module.symlink_to(MODULE)
        self.assertEqual(self.found(module), str(self.made))

    def test_by_the_loader(self):
        module = self.copied(MODULE, "lib", "python", "danivomel.py")
        self.copied(self.made, "elsewhere", NAME)
        self.assertEqual(self.found(module, LD_LIBRARY_PATH=self.folder / "elsewhere"), NAME)

    def test_nowhere(self):
        module = self.copied(MODULE, "lib", "python", "danivomel.py")
        line = self.missed(module)
        for tried in (self.folder / "lib" / NAME, self.folder / "target" / "shared" / NAME, f" {NAME}: "):
            self.assertIn(str(tried), line)

    def test_named_wrongly(self):
        text = self.copied(MODULE, "text.so")
        other = self.folder / "other.so"
        self.assertEqual(run("cc", "-shared", "-x", "c", "/dev/null", "-o", other).returncode, 0)
        for named in (self.folder / "none.so", self.folder, text, other):
            with self.subTest(named=named):
                line = self.missed(MODULE, DANIVOMEL_LIBRARY=named)
                self.assertIn(str(named), line)
                self.assertNotIn(str(self.made), line)


if __name__ == "__main__":
    unittest.main()
