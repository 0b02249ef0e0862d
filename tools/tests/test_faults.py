"""The command `replay` loses no file, and calls no failure green: hostile names, broken runs, nothing to check, a build that fails."""

import os
import pty
import shutil
import signal
import subprocess
import threading
import time
import unittest

from tests.support import AGREES, AGREES_ANSWERS, BUILT, DIFFERS, PLAIN, SCRIPT, Folder, last_line

ODD = ["-delete", "!", "(", ")", ",", "-dash", "-", "--check", "a b", "*", "\\", "$(touch x)"]
ONE = last_line(1, 1, 0, 0, 0, 0, 0)
# A continuous event over 4,294,967,295 ticks: some hundredths of a second.
BUSY = "set 38 1010 => ok\nset 42 0100 => ok\nbus 05 =>\nbus 08 =>\ntick 4294967295 =>\n"


class Names(Folder):
    def files(self) -> list[str]:
        return sorted(os.path.join(at, name) for at, _, names in os.walk(self.folder) for name in names)

    def test_folders_whose_names_look_like_options(self) -> None:
        for name in ODD:
            self.write(f"{name}/d.item", DIFFERS)
            self.write(f"{name}/other.text", DIFFERS)
        folders = [name for name in ODD if name != "-"]
        there = self.files()
        for words, text in (["--", *folders], ""), (["--files", "-"], "\n".join(folders)):
            status, out, err = self.run_script("--check", *words, text=text)
            names = [line.split(":")[0] for line in out.split("\n") if " differs " in line]
            self.assertEqual(names, [f"{name}/d.item" for name in folders])
            self.assertEqual((status, err), (1, ""))
            self.assertEqual(out.split("\n")[-2] + "\n", last_line(11, 0, 11, 0, 0, 0, 0))
        self.assertEqual(self.files(), there)

    def test_files_whose_names_look_like_options(self) -> None:
        names = [self.write(name, DIFFERS) for name in ODD]
        wanted = [name for name in names if name != "-"]
        status, out, err = self.run_script("--check", "--", *wanted)
        self.assertEqual([line.split(":")[0] for line in out.split("\n") if " differs " in line], wanted)
        self.assertEqual((status, err), (1, ""))
        # without an expectation they are looked at for lines
        for name in names:
            self.write(name, PLAIN)
        self.assertEqual(self.run_script("--check", "--", *wanted)[::2], (0, ""))

    def test_names_that_are_no_text(self) -> None:
        # bytes of Latin-1, where names are UTF-8
        for name in b"x/\xe9.item", b"x/\xe9\nx/b.item":
            self.write(os.fsdecode(name), DIFFERS)
        status, out, err = self.run_shell('"$@"', "--check", "x", LC_ALL="C.UTF-8")
        self.assertEqual((status, out.split("\n")[0]), (3, "x/\xe9.item:2: expect FE differs FE:0004/0000 (item slip)"))
        self.assertEqual(out.split("\n")[-2] + "\n", last_line(1, 0, 1, 0, 0, 0, 0))

    def test_standard_input_is_no_folder(self) -> None:
        self.write("-/a.item", DIFFERS)
        self.assertEqual(self.run_script("--check", "-", text=AGREES)[0], 0)
        self.assertEqual(self.run_script("--check", "./-")[0], 1)

    def test_a_name_with_a_line_feed_is_not_two(self) -> None:
        self.write("a\n", AGREES)
        self.write("x/1.item\nx/2.item", AGREES)
        self.write("x/2.item", AGREES)
        status, out, err = self.run_script("--check", "x")
        self.assertEqual((status, out), (3, "== 1 files ==\n" + ONE))
        self.assertEqual(err, "replay: $'x/1.item\\nx/2.item': a name that is empty or has a line feed is not taken\n")
        self.assertEqual(self.run_script("--check", "x/2.item", "x/1.item\nx/2.item"), (status, out, err))
        self.assertEqual(self.run_script("x/1.item\nx/2.item")[0], 0)
        self.assertEqual(self.run_script("--check", "x/2.item", "")[:2], (3, out))

    def test_a_link_to_a_folder(self) -> None:
        self.write("x/a.item", AGREES)
        os.symlink("x", os.path.join(self.folder, "link"))
        for words in ["link"], ["link/"], ["--files", self.write("list", "link\n")]:
            self.assertEqual(self.run_script("--check", *words), (0, "== 1 files ==\n" + ONE, ""))
        self.assertEqual(self.run_script("link")[1].split("\n")[0], "== link/a.item ==")


class Ends(Folder):
    def test_killed_among_many_files(self) -> None:
        names = [self.write(f"{number}.item", AGREES if number % 2 else BUSY) for number in range(200)]
        script = self.script_over(f'echo $$ > "{self.folder}/pid"\nexec "{BUILT}" "$@"\n')
        for trial in range(20):
            words = ["--check", *names] if trial % 2 else names
            with subprocess.Popen(
                [script, *words], stdin=subprocess.DEVNULL, stdout=subprocess.PIPE, stderr=subprocess.PIPE, cwd=self.folder
            ) as run:
                pid = self.program_of(run)
                time.sleep(0.01 + 0.02 * trial)
                os.kill(pid, signal.SIGKILL)
                out, err = run.communicate(timeout=60)
            self.assertNotIn(b" files, ", out)
            self.assertEqual(run.returncode, 3, (trial, err))
            self.assertIn(b"replay: the run broke off", err)

    def test_the_command_ended_by_a_signal(self) -> None:
        names = [self.write(f"{number}.item", BUSY) for number in range(200)]
        script = self.script_over(f'echo $$ > "{self.folder}/pid"\nexec "{BUILT}" "$@"\n')
        for words in names, ["--check", *names]:
            with subprocess.Popen([script, *words], stdin=subprocess.DEVNULL, stdout=subprocess.DEVNULL, cwd=self.folder) as run:
                pid = self.program_of(run)
                time.sleep(0.1)
                run.terminate()
                self.assertNotEqual(run.wait(timeout=60), 0)
            for _ in range(100):
                if not os.path.exists(f"/proc/{pid}/exe"):
                    break
                time.sleep(0.02)
            self.assertFalse(os.path.exists(f"/proc/{pid}/exe"), "the program goes on")

    def program_of(self, run: subprocess.Popen) -> int:
        """The number of the program's process, once it runs."""
        path = os.path.join(self.folder, "pid")
        while run.poll() is None:
            if os.path.exists(path) and os.path.getsize(path):
                with open(path) as file:
                    pid = int(file.read())
                os.unlink(path)
                return pid
            time.sleep(0.001)
        raise AssertionError("the program did not start")

    def told(self, answers: str, *words: str) -> int:
        """The status over a program that writes this."""
        status, out, err = self.run_script(*words, program=self.script_over(answers))
        self.assertEqual(bool(err), status == 3, err)
        return status

    def test_the_last_line_is_the_programs_own(self) -> None:
        self.write("a.item", AGREES)
        self.write("x/a.item", AGREES)
        item = AGREES_ANSWERS.replace("\n", "\\n")
        for words, other in (["a.item"], ONE), (["x"], AGREES_ANSWERS), (["--check", "a.item"], AGREES_ANSWERS):
            whole = item if words == ["a.item"] else ONE.replace("\n", "\\n")
            for text, status in (
                (f"printf '{whole}'", 0),
                (f"printf 'x\\n{whole}'", 0),
                (f"printf '{whole[:-2]}'", 3),
                (f"printf '{whole}x\\n'", 3),
                (f"printf '{whole}\\n'", 3),
                (f"printf '{whole}'; kill -9 $$", 3),
                (f"printf '{whole}'; exit 1", 3),
                (f"printf '{other}'", 3),
                ("printf 'x\\n'", 3),
                ("true", 3),
                ("kill -11 $$", 3),
            ):  # fmt: skip
                self.assertEqual(self.told(text + "\n", *words), status, (words, text))

    def test_another_number_of_files(self) -> None:
        self.write("x/a.item", AGREES)
        self.assertEqual(self.told(f"printf '{last_line(2, 2, 0, 0, 0, 0, 0)}'\n", "x"), 3)
        self.assertEqual(self.told(f"printf '{last_line(0, 0, 0, 0, 0, 0, 0)}'\n", "x"), 3)
        self.assertEqual(self.told(f"printf '{ONE}'\n", "x"), 0)

    def test_output_that_is_lost(self) -> None:
        self.write("a.item", AGREES)
        for words in ["a.item"], ["--check", "a.item"], ["a.item", "a.item"], ["--check", "."], ["--help"]:
            for closing in "> /dev/full", ">&-":
                status, _, err = self.run_shell(f'"$@" {closing}', *words)
                self.assertEqual(status, 3, (words, closing))
                self.assertTrue(err, (words, closing))
        self.assertEqual(self.run_shell('"$@" < a.item > /dev/full')[0], 3)
        self.assertEqual(self.run_shell('"$@" a.item 2>&-')[:2], (0, AGREES_ANSWERS))

    def test_standard_input_closed(self) -> None:
        self.write("a.item", AGREES)
        self.write("list", "a.item\n-\n")
        for words in [], ["-"], ["--check"], ["--check", "a.item", "-"], ["--files", "-"], ["--files", "list"]:
            status, _, err = self.run_shell('"$@" <&-', *words)
            self.assertEqual(status, 3, words)
            self.assertIn("replay: standard input is closed\n", err)
        self.assertEqual(self.run_shell('"$@" <&-', "a.item"), (0, AGREES_ANSWERS, ""))
        self.assertEqual(self.run_shell('"$@" <&-', "--check", "a.item")[::2], (0, ""))

    def test_the_commands_own_pipes_are_no_files(self) -> None:
        for number in 3, 4, 5, 9, 63:
            for words in [], ["--check"], ["--files"]:
                # 2 where the program has its list there
                self.assertIn(self.run_script(*words, f"/dev/fd/{number}")[0], (2, 3), (number, words))

    def test_standard_output_that_does_not_wait(self) -> None:
        self.write("a.item", "regs\n" * 2000)
        ours, theirs = os.pipe()
        os.set_blocking(theirs, False)
        done = subprocess.run([SCRIPT, "a.item"], stdin=subprocess.DEVNULL, stdout=theirs, stderr=subprocess.PIPE, cwd=self.folder, timeout=60)
        os.close(ours)
        os.close(theirs)
        self.assertEqual(done.returncode, 3)
        self.assertIn(b"replay: the run broke off", done.stderr)

    def test_no_room_for_the_names(self) -> None:
        self.write("a.item", AGREES)
        status, _, err = self.run_shell('"$@"', "--check", "a.item", TMPDIR="/no/such/folder")
        self.assertEqual(status, 3)
        self.assertIn("replay: no folder for the names of the files can be made\n", err)
        # a file may have one block of 1,024 bytes
        names = "".join(f"{number:0100}.item\n" for number in range(100))
        self.write("list", names)
        self.assertEqual(self.run_shell('trap "" XFSZ; ulimit -f 1; exec "$@"', "--check", "--files", "list")[0], 3)

    def test_few_file_descriptors(self) -> None:
        self.write("x/a.item", AGREES)
        self.write("list", "x/a.item\n")
        rt = os.path.dirname(self.write_program("path/rt", f'touch "{self.folder}/rt-was-run"\n'))
        for count in (5, 6, 7, 8, 10, 12, 16, 32, 63):
            for words in ["x/a.item"], ["--check", "x"], ["--check", "--files", "list"]:
                status, out, err = self.run_shell(f'ulimit -n {count}; exec "$@"', *words, PATH=rt + os.pathsep + os.environ["PATH"])
                self.assertIn(status, (0, 3), (count, words, err))
                self.assertEqual(status == 0, err == "", (count, words, err))
                self.assertEqual(status == 0, out != "" and out.split("\n")[-2].startswith("end 1 "), (count, words, out))
        self.assertEqual(status, 0)
        self.assertEqual(sorted(os.listdir(self.folder)), ["list", "path", "x"])


class Nothing(Folder):
    """What has nothing to check is no success."""

    def test_a_file_with_nothing_to_replay(self) -> None:
        self.write("a.item", AGREES)
        for text in "", "# a\n", "\n \t\r\n\t# a\n", "item x\n# a", "\r\n", "int\n", " awaited \r\nregs\nshow", "probe 1 2\n":
            self.write("n.item", text)
            told = "replay: {}: this file has no call and no expectation\n"
            for words in ["n.item"], ["--check", "n.item"], ["a.item", "n.item"]:
                self.assertEqual(self.run_script(*words)[::2], (3, told.format("n.item")), (words, text))
            for words in [], ["-"], ["--check"], ["--check", "a.item", "-"]:
                self.assertEqual(self.run_script(*words, text=text)[::2], (3, told.format("-")), (words, text))

    def test_calls_without_an_expectation(self) -> None:
        for text in "bus 05\n", "\t bus 05", "item x\nbus 05\n", "int\ntick 1\n":
            self.write("p.item", text)
            for words in ["p.item"], ["--check", "p.item"], [], ["--check"]:
                self.assertEqual(self.run_script(*words, text=text)[::2], (0, ""), (words, text))
            self.assertEqual(self.run_script("--check", "p.item")[1].split("\n")[1:3], ["no expectation: 1", "  p.item"])

    def test_check_reads_standard_input(self) -> None:
        status, out, err = self.run_script("--check", text=DIFFERS)
        self.assertEqual(out.split("\n")[0], "-:2: expect FE differs FE:0004/0000 (item slip)")
        self.assertEqual((status, err), (1, ""))
        self.assertEqual(self.run_script("--check", text=AGREES), (0, "== 1 files ==\n" + ONE, ""))

    def test_standard_input_twice(self) -> None:
        self.assertEqual(self.run_script("--check", "-", "-", text=AGREES)[0], 3)
        self.assertEqual(self.run_script("--check", "--files", "-", "-", text="a.item\n")[0], 3)

    def test_no_file_found(self) -> None:
        self.write("a.item", AGREES)
        os.mkdir(os.path.join(self.folder, "none"))
        self.write("list", "\n\n")
        for words in ["none"], ["--files", "list"], ["--files", "-"], ["--files", ""], ["--files", "none"], ["--files", "missing"]:
            for more in [], ["a.item"]:
                status, out, err = self.run_script("--check", *words, *more)
                self.assertEqual(status, 3, words)
                self.assertTrue(err, words)
                self.assertIn(f"{len(more)} agree", out)

    def test_a_folder_that_can_not_be_read(self) -> None:
        for name in "x/a.item", "x/deep/b.item":
            self.write(name, AGREES)
        # find tells so by its status
        path = os.path.dirname(self.write_program("path/find", f'{shutil.which("find")} "$@"\nexit 1\n'))
        status, out, err = self.run_shell('"$@"', "--check", "x", PATH=path + os.pathsep + os.environ["PATH"])
        self.assertEqual((status, err), (3, "replay: x: not all of this folder can be read\n"))
        self.assertIn("2 agree", out)
        self.write_program("path/find", "exit 127\n")
        self.assertEqual(self.run_shell('"$@"', "--check", "x", PATH=path + os.pathsep + os.environ["PATH"])[0], 3)

    @unittest.skipIf(os.geteuid() == 0, "root reads every folder")
    def test_a_folder_without_rights(self) -> None:
        for name in "x/a.item", "x/deep/b.item":
            self.write(name, AGREES)
        deep = os.path.join(self.folder, "x", "deep")
        os.chmod(deep, 0)
        self.addCleanup(os.chmod, deep, 0o755)
        self.assertEqual(self.run_script("--check", "x")[0], 3)

    def test_a_list_that_breaks_off(self) -> None:
        self.write("a.item", AGREES)
        path = os.path.dirname(self.write_program("path/cat", "echo a.item\nexit 1\n"))
        self.write("list", "a.item\n")
        status, out, err = self.run_shell('"$@"', "--check", "--files", "list", PATH=path + os.pathsep + os.environ["PATH"])
        self.assertEqual((status, err), (3, "replay: list: not all of this list can be read\n"))
        self.assertIn("1 agree", out)

    def test_a_list_is_read_once(self) -> None:
        """From a pipe by name, with standard error a terminal, at which the files are counted."""
        self.write("a.item", AGREES)
        fifo = os.path.join(self.folder, "list")
        os.mkfifo(fifo)
        for words in [], ["--vcd", "a.vcd"]:
            def feed() -> None:
                with open(fifo, "w") as file:
                    file.write("a.item\na.item\n")
            writer = threading.Thread(target=feed)
            writer.start()
            ours, theirs = pty.openpty()
            done = subprocess.run(
                [SCRIPT, "--check", *words, "--files", "list"], stdin=subprocess.DEVNULL, stdout=subprocess.PIPE, stderr=theirs, cwd=self.folder, timeout=60
            )
            writer.join()
            os.close(ours)
            os.close(theirs)
            self.assertEqual((done.returncode, done.stdout.decode()), (0, "== 2 files ==\n" + last_line(2, 2, 0, 0, 0, 0, 0)))
        self.assertEqual(self.run_shell('"$@" --files <(echo a.item)', "--check")[:2], (0, "== 1 files ==\n" + ONE))


class Builds(Folder):
    """The first run, with a shell script in the place of rt."""

    def setUp(self) -> None:
        super().setUp()
        self.write("a.item", AGREES)
        self.write("house/crates.txt", "replay:\n")
        os.makedirs(os.path.join(self.folder, "house", "crates", "replay"))
        self.script = shutil.copy(SCRIPT, os.path.join(self.folder, "house", "replay"))

    def run_first(self, rt: str, *words: str) -> tuple[int, str, str]:
        path = os.path.dirname(self.write_program("path/rt", rt))
        return self.run_shell(f'shift; "{self.script}" "$@"', *words, PATH=path + os.pathsep + os.environ["PATH"])

    BUILD = f'mkdir -p out && ln -sf "{BUILT}" out/replay'

    def test_a_build(self) -> None:
        status, out, err = self.run_first(f"cat\n{self.BUILD}\n", "a.item")
        self.assertEqual((status, out), (0, AGREES_ANSWERS))
        self.assertIn("proving 1 crates", err)
        self.assertEqual(self.run_first("exit 1\n", "a.item"), (0, AGREES_ANSWERS, ""))

    def test_rt_fails_where_a_program_is_left(self) -> None:
        for _ in range(2):
            status, out, err = self.run_first(f"{self.BUILD}\nexit 1\n", "a.item")
            self.assertEqual((status, out), (3, ""))
            self.assertIn("rt ended with status 1", err)
        self.assertEqual(self.run_first(f"{self.BUILD}\n", "a.item")[:2], (0, AGREES_ANSWERS))

    def test_rt_leaves_no_program(self) -> None:
        self.assertEqual(self.run_first("exit 0\n", "a.item")[:2], (3, ""))

    def test_no_rt(self) -> None:
        tools = os.path.join(self.folder, "tools")
        os.mkdir(tools)
        for name in "bash", "readlink", "mkdir", "flock", "awk":
            os.symlink(shutil.which(name) or "", os.path.join(tools, name))
        done = subprocess.run([self.script, "a.item"], stdin=subprocess.DEVNULL, capture_output=True, cwd=self.folder, env={"PATH": tools})
        self.assertEqual((done.returncode, done.stdout), (3, b""))
        self.assertEqual(done.stderr, b"replay: the program is not built yet, and rt, which builds it, is not found\n")

    def test_two_first_runs_at_once(self) -> None:
        # a half-written program that answers nothing, for a second
        half = "mkdir -p out; echo '#!/bin/sh' > out/replay; chmod +x out/replay"
        rt = f'echo run >> "{self.folder}/runs"\n{half}\nsleep 1\nrm out/replay\n{self.BUILD}\n'
        found: list[tuple[int, str, str]] = []
        path = os.path.dirname(self.write_program("path/rt", rt))
        def first() -> None:
            found.append(self.run_shell(f'shift; "{self.script}" "$@"', "a.item", PATH=path + os.pathsep + os.environ["PATH"]))
        threads = [threading.Thread(target=first) for _ in range(4)]
        for thread in threads:
            thread.start()
            time.sleep(0.15)
        for thread in threads:
            thread.join()
        self.assertEqual([run[:2] for run in found], [(0, AGREES_ANSWERS)] * 4)
        with open(os.path.join(self.folder, "runs")) as file:
            self.assertEqual(file.read(), "run\n")


if __name__ == "__main__":
    unittest.main()
