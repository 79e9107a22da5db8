"""Tests tests/together.py on small scripts: what it shows, and what it counts.

The last line is 'N passed, M failed', and the exit status is 0 exactly when M is 0.
"""

import contextlib
import io
import sys
import tempfile
import unittest
from pathlib import Path

from counting import run_tests
from together import main


class Together(unittest.TestCase):
    """What comes of scripts that are run side by side."""

    def run_all(self, *scripts):
        """The exit status and the lines of a run of scripts with these texts."""
        with tempfile.TemporaryDirectory() as folder:
            files = [Path(folder, f"{number}.py") for number in range(len(scripts))]
            for file, text in zip(files, scripts):
                file.write_text(text, encoding="utf-8")
            with contextlib.redirect_stdout(io.StringIO()) as shown:
                status = main([str(file) for file in files])
        return status, shown.getvalue().splitlines()

    def check(self, last, *scripts):
        """A run ends with this line, and well exactly where nothing failed."""
        status, lines = self.run_all(*scripts)
        self.assertEqual((lines[-1], status), (last, 0 if last.endswith(" 0 failed") else 1))

    def test_adds_up(self):
        self.check("5 passed, 0 failed", "print('2 passed, 0 failed')", "print('3 passed, 0 failed')")

    def test_shows_all_in_order(self):
        _, lines = self.run_all("import time; time.sleep(0.2); print('slow'); print('1 passed, 0 failed')", "print('1 passed, 0 failed')")
        self.assertEqual([line for line in lines if not line.startswith("==")], ["slow", *["1 passed, 0 failed"] * 2, "2 passed, 0 failed"])

    def test_a_failure(self):
        self.check("3 passed, 2 failed", "print('3 passed, 2 failed'); exit(1)")

    def test_no_count(self):
        self.check("1 passed, 1 failed", "print('1 passed, 0 failed')", "print('done')")

    def test_nothing_written(self):
        self.check("0 passed, 1 failed", "")

    def test_a_bad_end(self):
        self.check("1 passed, 1 failed", "print('1 passed, 0 failed'); exit(3)")

    def test_what_goes_to_standard_error_is_shown(self):
        _, lines = self.run_all("import sys; print('why', file=sys.stderr); print('1 passed, 0 failed')")
        self.assertIn("why", lines)


if __name__ == "__main__":
    sys.exit(run_tests(__name__))
