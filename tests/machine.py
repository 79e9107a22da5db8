"""Where the archive is that users link, and how an x86-64 program runs on this machine."""

import platform
from pathlib import Path

ROOT = Path(__file__).resolve().parent.parent
ARCHIVE = ROOT / "crates" / "panbuckle_c" / "out" / "libpanbuckle_c.a"
NATIVE = platform.machine() == "x86_64"


def emulator():
    """The words that come before an x86-64 program to run it here: on another processor those of Debian's qemu-user."""
    return [] if NATIVE else ["qemu-x86_64"]
