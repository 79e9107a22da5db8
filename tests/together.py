"""Runs test scripts side by side, as many at a time as there are processors, and adds up what they counted.

The words are scripts, which may not wait for each other. What each one writes is shown whole, in the order of the words. The last line is
'N passed, M failed', and the exit status is 0 exactly when M is 0.
"""

import os
import re
import subprocess
import sys
import time
from concurrent.futures import ThreadPoolExecutor
from dataclasses import dataclass

from counting import report

COUNTED = re.compile(r"(\d+) passed, (\d+) failed")


@dataclass(frozen=True)
class Outcome:
    """What a script wrote, its exit status, and how many seconds it took."""

    script: str
    text: str
    status: int
    seconds: int

    def counts(self):
        """How many of its tests passed and failed. A script that does not count, or ends badly without a failure, has one."""
        last = COUNTED.fullmatch(self.text.rstrip("\n").rpartition("\n")[2])
        passed, failed = (int(last[1]), int(last[2])) if last else (0, 1)
        return passed, 1 if self.status != 0 and failed == 0 else failed


def outcome_of(script):
    """Runs a script."""
    began = time.monotonic()
    ends = {"stdin": subprocess.DEVNULL, "stdout": subprocess.PIPE, "stderr": subprocess.STDOUT}
    done = subprocess.run([sys.executable, script], **ends, text=True, check=False)
    return Outcome(script, done.stdout, done.returncode, round(time.monotonic() - began))


def main(scripts):
    """Runs the scripts, shows what they write, and gives the exit status."""
    passed, faults = 0, []
    with ThreadPoolExecutor(os.cpu_count()) as lanes:
        for outcome in lanes.map(outcome_of, scripts):
            more_passed, more_failed = outcome.counts()
            passed += more_passed
            faults += [f"{outcome.script}: a failure"] * more_failed
            print(f"== {outcome.script}", outcome.text.rstrip("\n"), sep="\n")
            print(f"== {outcome.script}: exit status {outcome.status} after {outcome.seconds} s", flush=True)
    return report(passed, faults)


if __name__ == "__main__":
    sys.exit(main(sys.argv[1:]))
