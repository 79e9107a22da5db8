"""Tests the scripts of bin/ on a made-up tree, with a stand-in for the kit: when they build, and that the program gets the input. And the test
gate, .ci/run, with stand-ins for all that it calls: what it counts of `rt ci`.

The last line is 'N passed, M failed', and the exit status is 0 exactly when M is 0.
"""

import os
import shutil
import subprocess
import sys
import tempfile
import unittest
from pathlib import Path

from counting import run_tests

ROOT = Path(__file__).resolve().parent.parent
SCRIPTS = ROOT / "bin"

# The stand-in's `rt` counts its builds, would eat the points if it were given them, and builds a program that says so and writes what it
# reads; as `rt run` does, it runs the program once.
RT = """#!/bin/sh
[ "$1" = run ] || exit 3
[ ! -e "$KIT/broken" ] || exit 1
cat
echo build >>"$KIT/builds"
name=$(basename "$PWD")
mkdir -p out
printf '#!/bin/sh\\necho %s read\\ncat\\n' "$name" >"out/$name"
chmod +x "out/$name"
"out/$name"
"""
READ = "fracture read\n0 0\n1 0\n"
# What an emulator of another processor is given before the program.
EMULATOR = '#!/bin/sh\nshift 3\nexec "$@"\n'


def write(path, text):
    """A file of the tree that can be run."""
    path.parent.mkdir(parents=True, exist_ok=True)
    path.write_text(text, encoding="utf-8")
    path.chmod(0o755)


class Script(unittest.TestCase):
    """What a script does in one tree."""

    def setUp(self):
        folder = tempfile.TemporaryDirectory()
        self.addCleanup(folder.cleanup)
        self.folder = Path(folder.name)
        self.tree, self.kit = self.folder / "tree", self.folder / "kit"
        self.source = self.tree / "crates" / "fracture" / "src" / "main.rt"
        write(self.source, "fn main() {}\n")
        write(self.tree / "crates" / "picture" / "src" / "main.rt", "fn main() {}\n")
        write(self.tree / "crates.txt", "fracture:\n")
        for script in SCRIPTS.iterdir():
            write(self.tree / "bin" / script.name, script.read_text(encoding="utf-8"))
        write(self.kit / "bin" / "rt", RT)
        write(self.kit / "bin" / "qemu-x86_64", EMULATOR)

    def run_script(self, script=None, path=None, **named):
        """Runs the script on two lines, away from the tree."""
        env = {"PATH": path or f"{self.kit / 'bin'}:{os.environ['PATH']}", "KIT": str(self.kit), **named}
        script = script or self.tree / "bin" / "fracture"
        return subprocess.run([script], input="0 0\n1 0\n", env=env, cwd=self.folder, text=True, capture_output=True, check=False)

    def builds(self):
        """How often the tree was built."""
        log = self.kit / "builds"
        return len(log.read_text(encoding="utf-8").splitlines()) if log.exists() else 0

    def make_later(self, path):
        """Makes a file or a folder later than the program that is built."""
        later = (self.tree / "crates" / "fracture" / "out" / "fracture").stat().st_mtime + 10
        os.utime(path, (later, later))

    def test_builds_on_first_use_and_keeps_the_points(self):
        done = self.run_script()
        self.assertEqual((done.returncode, done.stdout, self.builds()), (0, READ, 1))
        self.assertIn("built and proved first", done.stderr)

    def test_builds_once(self):
        self.run_script()
        done = self.run_script()
        self.assertEqual((done.stdout, done.stderr, self.builds()), (READ, "", 1))

    def test_builds_again_after_an_edit(self):
        self.run_script()
        self.make_later(self.source)
        self.assertEqual((self.run_script().stdout, self.builds()), (READ, 2))

    def test_builds_again_after_an_edit_of_a_crate_below(self):
        proof = self.tree / "crates" / "plane" / "proofs" / "Order.antt"
        write(proof, "")
        self.run_script()
        self.make_later(proof)
        self.assertEqual((self.run_script().stdout, self.builds()), (READ, 2))

    def test_what_a_check_leaves_is_no_edit(self):
        self.run_script()
        left = self.tree / "crates" / "picture" / "out" / "picture"
        write(left, "")
        self.make_later(left)
        self.make_later(left.parent)
        self.make_later(left.parent.parent)
        self.assertEqual((self.run_script().stdout, self.builds()), (READ, 1))

    def test_builds_nothing_where_it_must_not(self):
        done = self.run_script(PANBUCKLE_BUILD="no")
        self.assertEqual((done.returncode, done.stdout, done.stderr, self.builds()), (2, "", "fracture: it is not built\n", 0))
        self.run_script()
        self.assertEqual((self.run_script(PANBUCKLE_BUILD="no").stdout, self.builds()), (READ, 1))

    def test_each_script_runs_its_own_program(self):
        done = self.run_script(self.tree / "bin" / "picture")
        self.assertEqual((done.returncode, done.stdout, self.builds()), (0, READ.replace("fracture", "picture"), 1))
        self.assertEqual((self.run_script().stdout, self.builds()), (READ, 2))

    def test_says_when_it_cannot_be_built(self):
        write(self.kit / "broken", "")
        done = self.run_script()
        self.assertEqual((done.returncode, done.stdout), (2, ""))
        self.assertIn("it could not be built", done.stderr)

    def test_says_when_there_is_no_kit(self):
        tools = self.folder / "tools"
        tools.mkdir()
        for name in ("bash", "dirname", "env", "find", "readlink", "uname"):
            (tools / name).symlink_to(shutil.which(name))
        done = self.run_script(path=str(tools))
        self.assertEqual((done.returncode, done.stdout), (2, ""))
        self.assertIn("there is no command 'rt'", done.stderr)

    def test_runs_through_a_link(self):
        link = self.folder / "fracture"
        link.symlink_to(self.tree / "bin" / "fracture")
        self.assertEqual(self.run_script(link).stdout, READ)


# What `rt ci` writes last where all is well, and where edits are bad.
GOOD = "rt: ok; handles allowed: none; must-fail edits: 5 refused; done in this run: 2 of the 4 proofs\n7 passed, 0 failed\n"
BAD = GOOD.replace("5 refused", "3 refused, 1 of them only by a limit, 2 bad")
# In its other steps one test passes each.
STEPS = 3


class Gate(unittest.TestCase):
    """What .ci/run makes of `rt ci`."""

    def check(self, said, status, passed, failed):
        """With this of `rt ci` the gate counts so, and what it said is kept."""
        with tempfile.TemporaryDirectory() as folder:
            tree, tools = Path(folder, "tree"), Path(folder, "tools")
            write(tree / ".ci" / "run", (ROOT / ".ci" / "run").read_text(encoding="utf-8"))
            write(Path(folder, "said"), said)
            write(tools / "rt", f'#!/bin/sh\n[ "$*" = ci ] && [ "$PWD" = "{tree}" ] && [ ! -e target ] || exit 9\ncat "{folder}/said"\nexit {status}\n')
            write(tools / "python3", '#!/bin/sh\n[ "$PANBUCKLE_BUILD" = no ] && echo "1 passed, 0 failed"\n')
            for name in ("gcc", "x86_64-linux-gnu-gcc", "qemu-x86_64"):
                write(tools / name, "#!/bin/sh\n")
            env = {**os.environ, "PATH": f"{tools}:{os.environ['PATH']}"}
            done = subprocess.run([tree / ".ci" / "run"], env=env, cwd=folder, text=True, capture_output=True, check=False)
            self.assertEqual(done.stdout.splitlines()[-1], f"{passed + STEPS} passed, {failed} failed")
            self.assertEqual(done.returncode, 1 if failed else 0)
            self.assertEqual((tree / "target" / "ci.log").read_text(encoding="utf-8"), said)

    def test_all_is_well(self):
        self.check(GOOD, 0, 7, 0)

    def test_bad_edits(self):
        self.check(BAD, 0, 7, 2)

    def test_all_edits_are_bad(self):
        self.check(GOOD.replace("5 refused", "0 refused, 5 bad"), 0, 7, 5)

    def test_no_word_of_the_edits(self):
        self.check("rt: ok; handles allowed: none\n7 passed, 0 failed\n", 0, 7, 1)

    def test_what_fails(self):
        self.check("rt: FAILED: plane\n6 passed, 1 failed\n", 1, 6, 1)

    def test_a_bad_end(self):
        self.check(GOOD, 2, 7, 1)

    def test_no_count(self):
        self.check("rt: a crate is refused\n", 2, 0, 1)


if __name__ == "__main__":
    sys.exit(run_tests(__name__))
