"""What the tests of the command `replay` share: items, the command in a folder of its own, programs in its place."""

import os
import shutil
import subprocess
import tempfile
import unittest

ROOT = os.path.dirname(os.path.dirname(os.path.dirname(os.path.abspath(__file__))))
SCRIPT = os.path.join(ROOT, "replay")
BUILT = os.path.join(ROOT, "crates", "replay", "out", "replay")

# What each item comes to follows from docs/ITEMS.md: a fresh model has POR (0004h), and Initialize sets INIT (0008h) beside it.
AGREES = "bus 05 => ok -\nexpect FE 000C\n"
DIFFERS = "item slip\nexpect FE 0000\n"
REFUSED = "expect FE 0004\nbus 02\n"
BAD = "expect FE 0004\nnonsense\n"
PLAIN = "tick 1\n"

AGREES_ANSWERS = "bus ok -\nexpect FE ok\nend 1 calls, 0 refused, 0 unannounced, 0 bad lines, 2 expectations, 0 differ\n"
DIFFERS_ANSWERS = (
    "item slip\nexpect FE differs FE:0004/0000\n"
    "end 0 calls, 0 refused, 0 unannounced, 0 bad lines, 1 expectations, 1 differ\n"
)


def last_line(files: int, agree: int, differ: int, unannounced: int, bad: int, unread: int, plain: int) -> str:
    return (
        f"end {files} files, {agree} agree, {differ} differ, {unannounced} unannounced, {bad} bad lines, "
        f"{unread} cannot be read, {plain} no expectation\n"
    )


@unittest.skipUnless(os.access(BUILT, os.X_OK), f"there is no {BUILT}: run ./replay once")
class Folder(unittest.TestCase):
    """A folder of its own for each test."""

    def setUp(self) -> None:
        folder = tempfile.TemporaryDirectory()
        self.addCleanup(folder.cleanup)
        self.folder = folder.name

    def write(self, name: str, text: str) -> str:
        path = os.path.join(self.folder, name)
        os.makedirs(os.path.dirname(path), exist_ok=True)
        with open(path, "w", encoding="latin-1") as file:
            file.write(text)
        return name

    def run_script(self, *words: str, text: str = "", program: str = SCRIPT) -> tuple[int, str, str]:
        done = subprocess.run([program, *words], input=text.encode("latin-1"), capture_output=True, cwd=self.folder, timeout=60)
        return done.returncode, done.stdout.decode("latin-1"), done.stderr.decode("latin-1")

    def run_shell(self, command: str, *words: str, **more: str) -> tuple[int, str, str]:
        """A line of bash, in which "$@" is the command with these words; more are names of its environment."""
        done = subprocess.run(
            ["bash", "-c", command, "bash", SCRIPT, *words],
            stdin=subprocess.DEVNULL, capture_output=True, cwd=self.folder, timeout=60, env={**os.environ, **more},
        )  # fmt: skip
        return done.returncode, done.stdout.decode("latin-1"), done.stderr.decode("latin-1")

    def write_program(self, name: str, text: str) -> str:
        """A shell script; its whole name."""
        path = os.path.join(self.folder, self.write(name, "#!/bin/sh\n" + text))
        os.chmod(path, 0o755)
        return path

    def script_over(self, text: str) -> str:
        """The command with this shell script in the place of the program."""
        self.write_program("other/crates/replay/out/replay", text)
        return shutil.copy(SCRIPT, os.path.join(self.folder, "other", "replay"))

