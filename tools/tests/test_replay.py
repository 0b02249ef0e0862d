"""The command `replay` over collections of items."""

import os
import pty
import re
import subprocess
import unittest

from tests.support import AGREES, AGREES_ANSWERS, BAD, BUILT, DIFFERS, DIFFERS_ANSWERS, PLAIN, REFUSED, SCRIPT, Folder, last_line


class Collections(Folder):
    def five(self) -> list[str]:
        return [
            self.write("a.item", AGREES),
            self.write("d.item", DIFFERS),
            self.write("r.item", REFUSED),
            self.write("b.item", BAD),
            self.write("p.item", PLAIN),
        ]

    SUMMARY = (
        "== 6 files ==\nexpectations differ: 1\n  d.item\nunannounced refusals: 1\n  r.item\nbad lines: 1\n  b.item\n"
        "cannot be read: 1\n  missing.item\nno expectation: 1\n  p.item\n" + last_line(6, 1, 1, 1, 1, 1, 1)
    )

    def test_headings_and_summary(self) -> None:
        self.write("a.item", AGREES)
        self.write("d.item", DIFFERS)
        status, out, err = self.run_script("a.item", "d.item")
        self.assertEqual(
            out,
            "== a.item ==\n" + AGREES_ANSWERS + "== d.item ==\n" + DIFFERS_ANSWERS
            + "== 2 files ==\nexpectations differ: 1\n  d.item\n" + last_line(2, 1, 1, 0, 0, 0, 0),
        )
        self.assertEqual((status, err), (1, ""))

    def test_check_of_every_kind(self) -> None:
        names = self.five()
        status, out, err = self.run_script("--check", names[0], "missing.item", *names[1:])
        self.assertEqual(
            out,
            "d.item:2: expect FE differs FE:0004/0000 (item slip)\nr.item:2: bus no 8 not initialised\nb.item:2: line 2: unknown word\n"
            + self.SUMMARY,
        )
        self.assertEqual((status, err), (3, "missing.item: No such file or directory\n"))

    def test_the_program_by_itself(self) -> None:
        names = self.five()
        wanted = self.run_script("--check", names[0], "missing.item", *names[1:])[1:]
        self.assertEqual(self.run_script("--check", names[0], "missing.item", *names[1:], program=BUILT)[1:], wanted)

    def test_statuses(self) -> None:
        names = self.five()
        for name, wanted in zip(names, [0, 1, 1, 2, 0]):
            self.assertEqual(self.run_script(name)[0], wanted, name)
            self.assertEqual(self.run_script("--check", name)[0], wanted, name)
        self.assertEqual(self.run_script(*names)[0], 2)
        self.assertEqual(self.run_script("missing.item")[0], 3)
        self.assertEqual(self.run_script("--check", "a.item", "p.item")[0], 0)

    def test_one_file_and_standard_input(self) -> None:
        self.write("a.item", AGREES)
        self.assertEqual(self.run_script("a.item"), (0, AGREES_ANSWERS, ""))
        self.assertEqual(self.run_script(text=AGREES), (0, AGREES_ANSWERS, ""))
        self.assertEqual(self.run_script("-", text=AGREES), (0, AGREES_ANSWERS, ""))

    def test_standard_input_among_files(self) -> None:
        self.write("a.item", AGREES)
        status, out, _ = self.run_script("--check", "a.item", "-", text=DIFFERS)
        self.assertEqual(
            out,
            "-:2: expect FE differs FE:0004/0000 (item slip)\n== 2 files ==\nexpectations differ: 1\n  -\n" + last_line(2, 1, 1, 0, 0, 0, 0),
        )
        self.assertEqual(status, 1)

    def test_folders_in_order(self) -> None:
        for name in ("x/2.item", "x/10.item", "x/deep/1.item", "x/no.text", "y.item"):
            self.write(name, AGREES)
        _, out, _ = self.run_script("y.item", "x")
        self.assertEqual(
            re.findall(r"== (.*) ==", out), ["y.item", "x/10.item", "x/2.item", "x/deep/1.item", "4 files"]
        )

    def test_a_folder_of_one_and_of_none(self) -> None:
        self.write("x/a.item", AGREES)
        self.assertIn("== x/a.item ==\n", self.run_script("x")[1])
        os.mkdir(os.path.join(self.folder, "none"))
        none = "== 0 files ==\n" + last_line(0, 0, 0, 0, 0, 0, 0)
        self.assertEqual(self.run_script("none"), (3, none, "replay: none: no .item file is taken from this folder\n"))

    def test_lists(self) -> None:
        names = self.five()
        names.insert(1, "missing.item")
        # an empty line is no name, and the last may lack its line feed
        text = "\n".join(names[:3]) + "\n\n" + "\n".join(names[3:])
        wanted = self.run_script("--check", *names)
        self.assertEqual(self.run_script("--check", "--files", "-", text=text), wanted)
        self.write("list", text)
        self.assertEqual(self.run_script("--check", "--files", "list"), wanted)
        self.assertEqual(self.run_script("--check", "--files", "-", text=text, program=BUILT)[1:], wanted[1:])

    def test_a_list_with_a_folder(self) -> None:
        self.write("x/a.item", AGREES)
        self.write("b.item", AGREES)
        self.assertEqual(
            self.run_script("--check", "--files", "-", text="b.item\nx\n")[1], "== 2 files ==\n" + last_line(2, 2, 0, 0, 0, 0, 0)
        )

    def test_a_list_that_can_not_be_read(self) -> None:
        self.write("a.item", AGREES)
        status, out, err = self.run_script("--check", "--files", "nothing", "a.item")
        self.assertEqual(out, "== 2 files ==\ncannot be read: 1\n  nothing\n" + last_line(2, 1, 0, 0, 0, 1, 0))
        self.assertEqual((status, err), (3, "nothing: No such file or directory\n"))
        self.assertEqual(self.run_script("--check", "--files", "nothing", "a.item", program=BUILT)[1:], (out, err))

    def test_names_too_long_to_open(self) -> None:
        self.write("a.item", AGREES)
        long = "n" * 5000
        status, out, err = self.run_script("--check", "--files", "-", text=f"{long}\na.item\n")
        self.assertEqual(out, "== 2 files ==\ncannot be read: 1\n  " + "n" * 4096 + "\n" + last_line(2, 1, 0, 0, 0, 1, 0))
        self.assertEqual((status, err), (3, "n" * 4096 + ": File name too long\n"))
        self.assertEqual(self.run_script("--check", "--", long, "a.item")[1], out)

    def test_a_folder_in_place_of_a_file(self) -> None:
        os.mkdir(os.path.join(self.folder, "x"))
        self.write("a.item", AGREES)
        status, out, err = self.run_script("--check", "x", "a.item", program=BUILT)
        self.assertEqual(out, "== 2 files ==\ncannot be read: 1\n  x\n" + last_line(2, 1, 0, 0, 0, 1, 0))
        self.assertEqual(err, "x: Is a directory\n")

    def test_more_names_than_there_is_room_for(self) -> None:
        # a name of 252 bytes takes 255 with its blanks and its line feed: 257 of them fit into 65,536 places
        text = "".join(f"{number:0252}\n" for number in range(300))
        status, out, _ = self.run_script("--check", "--files", "-", text=text)
        lines = out.split("\n")
        self.assertEqual(lines[:2], ["== 300 files ==", "cannot be read: 300"])
        self.assertEqual(lines[2:259], [f"  {number:0252}" for number in range(257)])
        self.assertEqual("\n".join(lines[259:]), "  and 43 more\n" + last_line(300, 0, 0, 0, 0, 300, 0))
        self.assertEqual(status, 3)

    def test_each_file_starts_anew(self) -> None:
        # lines count from 1, and the model is fresh: the second file's Initialize was not the first's
        self.write("1.item", "bus 05 =>\nbus 42 02 00 =>\n")
        self.write("2.item", "item x\nexpect FE 0004\nexpect C2 0000\nbad\n")
        _, out, _ = self.run_script("--check", "1.item", "2.item")
        self.assertEqual(out.split("\n")[0], "2.item:4: line 4: unknown word (item x)")

    def errors_at_a_terminal(self, *words: str) -> str:
        """What the command writes to standard error at a terminal, its answers being thrown away."""
        ours, theirs = pty.openpty()
        done = subprocess.Popen([SCRIPT, *words], stdin=subprocess.DEVNULL, stdout=subprocess.DEVNULL, stderr=theirs, cwd=self.folder)
        os.close(theirs)
        found = b""
        while True:
            try:
                part = os.read(ours, 4096)
            except OSError:
                break
            if not part:
                break
            found += part
        done.wait()
        os.close(ours)
        return found.decode("latin-1")

    def test_progress(self) -> None:
        # a continuous event over 4,294,967,295 ticks, some hundredths of a second a file and seconds in all
        busy = "set 38 1010 => ok\nset 42 0100 => ok\nbus 05 =>\nbus 08 =>\n" + "tick 4294967295 =>\n"
        names = [self.write(f"{number}.item", busy) for number in range(40)]
        self.assertEqual(self.run_script("--check", *names)[2], "")
        shown = self.errors_at_a_terminal("--check", *names)
        self.assertRegex(shown, r"\A(\x1b\[K\d+ of 40 files\r)+\x1b\[K\Z")
        self.assertEqual(self.errors_at_a_terminal("--check", self.write("short.item", PLAIN)), "")


if __name__ == "__main__":
    unittest.main()
