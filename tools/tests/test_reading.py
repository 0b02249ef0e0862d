"""The files that a person reads to believe the chip's model."""

import os
import subprocess
import unittest

ROOT = os.path.dirname(os.path.dirname(os.path.dirname(os.path.abspath(__file__))))


class Reading(unittest.TestCase):
    def test_the_files_are_there_and_few_enough(self) -> None:
        done = subprocess.run([os.path.join(ROOT, "tools", "reading"), "--check"], capture_output=True, text=True)
        self.assertEqual(done.returncode, 0, done.stdout + done.stderr)


if __name__ == "__main__":
    unittest.main()
