"""The options --picture and --vcd of the command `replay`."""

import os
import shutil
import stat
import subprocess
import tempfile
import unittest

import program
from tests.support import EXAMPLES

SCRIPT = os.path.join(program.ROOT, "replay")
BUILT = os.path.join(program.ROOT, "crates", "replay", "out", "replay")
FIRST = os.path.join(EXAMPLES, "first.item")
DIFFERS = os.path.join(EXAMPLES, "differs.item")
EVENT = os.path.join(EXAMPLES, "event.item")


@unittest.skipUnless(os.access(BUILT, os.X_OK), f"there is no {BUILT}: run ./replay once")
class Script(unittest.TestCase):
    def setUp(self) -> None:
        folder = tempfile.TemporaryDirectory()
        self.addCleanup(folder.cleanup)
        self.folder = folder.name

    def run_script(self, *words: str, text: bytes | None = None) -> subprocess.CompletedProcess:
        return subprocess.run([SCRIPT, *words], input=text, capture_output=True, cwd=self.folder)

    def head(self, name: str) -> str:
        with open(os.path.join(self.folder, name), encoding="utf-8") as file:
            return file.read(60)

    def test_answers_and_status_are_as_without(self) -> None:
        for item, status in ((FIRST, 0), (DIFFERS, 1)):
            plain = self.run_script(item)
            drawn = self.run_script("--picture", "a.svg", "--vcd=a.vcd", item)
            self.assertEqual((drawn.stdout, drawn.returncode), (plain.stdout, plain.returncode))
            self.assertEqual((drawn.returncode, drawn.stderr), (status, b""))
        self.assertTrue(self.head("a.svg").startswith("<svg "))
        self.assertTrue(self.head("a.vcd").startswith("$comment "))

    def test_several_files(self) -> None:
        done = self.run_script("--picture", "a.html", FIRST, EVENT)
        self.assertEqual(done.returncode, 1)
        self.assertTrue(self.head("a.html").startswith("<!DOCTYPE html>"))

    def test_standard_input(self) -> None:
        with open(DIFFERS, "rb") as file:
            text = file.read()
        done = self.run_script("--picture", "a.svg", text=text)
        self.assertEqual((done.stdout, done.returncode), (self.run_script(text=text).stdout, 1))
        self.assertTrue(self.head("a.svg").startswith("<svg "))

    def test_what_can_not_be_drawn(self) -> None:
        self.assertEqual(self.run_script("--picture", "a.png", FIRST).returncode, 3)
        self.assertEqual(self.run_script("--picture").returncode, 3)
        self.assertEqual(self.run_script("--picture", "no/such/folder/a.svg", FIRST).returncode, 3)

    def test_unreadable_file_beside_another(self) -> None:
        done = self.run_script("--picture", "a.svg", "nothing.item", FIRST)
        self.assertEqual(done.returncode, 3)
        self.assertTrue(self.head("a.svg").startswith("<svg "))

    def copy(self, item: str, name: str) -> str:
        shutil.copy(item, os.path.join(self.folder, name))
        return name

    def refuses(self, *words: str, text: bytes | None = None) -> None:
        """Nothing is written, and the status tells so."""
        before = self.contents()
        done = self.run_script(*words, text=text)
        self.assertEqual(done.returncode, 3, words)
        self.assertTrue(done.stderr, words)
        self.assertEqual(self.contents(), before, words)

    def contents(self) -> dict[str, bytes]:
        found = {}
        for name in os.listdir(self.folder):
            with open(os.path.join(self.folder, name), "rb") as file:
                found[name] = file.read()
        return found

    def test_no_input_is_written_over(self) -> None:
        self.copy(FIRST, "a.item")
        self.copy(FIRST, "b.svg")
        os.symlink("a.item", os.path.join(self.folder, "link.vcd"))
        os.link(os.path.join(self.folder, "a.item"), os.path.join(self.folder, "hard.vcd"))
        with open(os.path.join(self.folder, "list"), "w") as file:
            file.write("a.item\n")
        for output in "a.item", "./a.item", os.path.join(self.folder, "a.item"), "link.vcd", "hard.vcd":
            self.refuses("--vcd", output, "a.item")
            self.refuses("--picture", "new.svg", "--vcd", output, EVENT, "a.item")
            self.refuses("--check", "--vcd", output, "--files", "list")
        self.refuses("--picture", "b.svg", "a.item", "b.svg")
        self.refuses("--vcd", "list", "--files", "list")
        with open(os.path.join(self.folder, "a.item"), "rb") as file:
            done = subprocess.run([SCRIPT, "--vcd", "a.item"], stdin=file, capture_output=True, cwd=self.folder)
        self.assertEqual(done.returncode, 3)
        self.assertEqual(self.contents()["a.item"], self.contents()["b.svg"])

    def test_no_output_is_written_over_another(self) -> None:
        self.refuses("--picture", "a.svg", "--vcd", "a.svg", FIRST)
        self.refuses("--picture", "a.svg", "--vcd", "./a.svg", FIRST)
        self.refuses("--picture", "a.svg", "--picture", "b.svg", FIRST)
        self.copy(FIRST, "old.svg")
        os.symlink("old.svg", os.path.join(self.folder, "link"))
        self.refuses("--picture", "old.svg", "--vcd", "link", FIRST)

    def test_a_picture_that_is_cut_leaves_the_old_one(self) -> None:
        for name in "old.svg", "old.vcd":
            self.copy(FIRST, name)
        before = self.contents()
        # a file may have four blocks of 1,024 bytes; the dump of this item has less, and the picture more
        command = ["bash", "-c", 'trap "" XFSZ; ulimit -f 4; exec "$@"', "bash", SCRIPT, "--vcd", "old.vcd", "--picture", "old.svg", FIRST]
        done = subprocess.run(command, capture_output=True, cwd=self.folder)
        self.assertEqual(done.returncode, 3)
        self.assertIn(b"File too large", done.stderr)
        self.assertEqual(self.contents(), before)

    def test_a_new_picture_keeps_links_and_rights(self) -> None:
        self.copy(FIRST, "old.svg")
        os.chmod(os.path.join(self.folder, "old.svg"), 0o640)
        os.symlink("old.svg", os.path.join(self.folder, "link.svg"))
        self.assertEqual(self.run_script("--picture", "link.svg", FIRST).returncode, 0)
        self.assertTrue(self.head("old.svg").startswith("<svg "))
        self.assertTrue(os.path.islink(os.path.join(self.folder, "link.svg")))
        self.assertEqual(os.stat(os.path.join(self.folder, "old.svg")).st_mode & 0o777, 0o640)
        self.assertEqual(sorted(os.listdir(self.folder)), ["link.svg", "old.svg"])

    def test_a_pipe_is_written_as_it_stands(self) -> None:
        path = os.path.join(self.folder, "a.vcd")
        os.mkfifo(path)
        with subprocess.Popen(["cat", path], stdout=subprocess.PIPE) as reader:
            done = self.run_script("--vcd", "a.vcd", FIRST)
            output = reader.communicate(timeout=60)[0]
        self.assertEqual((done.returncode, done.stderr), (0, b""))
        self.assertTrue(output.startswith(b"$comment "))
        self.assertTrue(stat.S_ISFIFO(os.stat(path).st_mode))

    def test_standard_input_among_files(self) -> None:
        with open(DIFFERS, "rb") as file:
            text = file.read()
        for words in ["--check", "-"], ["--check"], [FIRST, "-"]:
            done = self.run_script("--picture", "a.html", *words, text=text)
            self.assertEqual((done.returncode, done.stderr), (1, b""), words)
            with open(os.path.join(self.folder, "a.html"), encoding="utf-8") as file:
                self.assertIn("E3 has 0000, expected 0001", file.read())

    def test_names_that_are_no_text(self) -> None:
        name = self.copy(FIRST, os.fsdecode(b"\xe9.item"))
        done = self.run_script("--picture", "a.svg", name)
        self.assertEqual((done.returncode, done.stderr), (0, b""))
        self.assertTrue(self.head("a.svg").startswith("<svg "))
