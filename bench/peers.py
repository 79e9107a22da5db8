"""Another program that reads GDSII, to be timed beside ours: KLayout, from Debian's package.

Run by itself it fetches KLayout. On x86-64 that is `apt-get install`. On another processor it downloads the package for x86-64 and what it
needs, 150 MB, unpacks them, 600 MB, below target/peers (or the folder that BENCH_PEERS names), and leaves the machine's own packages alone;
KLayout then runs under Debian's emulator, as ours does.
"""

import os
import shutil
import subprocess
import sys
from pathlib import Path

sys.path.append(str(Path(__file__).resolve().parent.parent / "tests"))

from machine import NATIVE, ROOT, emulator  # noqa: E402

PACKAGE = "klayout"
PEERS = Path(os.environ.get("BENCH_PEERS") or ROOT / "target" / "peers").resolve()
UNPACKED = PEERS / "root"
PROGRAM = UNPACKED / "usr" / "lib" / "klayout" / "klayout"
FETCH = "python3 bench/peers.py"

# What apt is told, so that it fetches for x86-64 as if nothing were installed, and writes nowhere else.
APT = """APT::Architecture "amd64";
APT::Architectures {{ "amd64"; }};
APT::Install-Recommends "false";
APT::Sandbox::User "";
Dir::State "{0}/state";
Dir::State::status "{0}/status";
Dir::Cache "{0}/cache";
Debug::NoLocking "true";
"""


def klayout(main_stack):
    """The words that run KLayout, or None where it is not there. The library main_stack is loaded before its own under the emulator."""
    if NATIVE:
        return [PACKAGE] if shutil.which(PACKAGE) else None
    if not PROGRAM.exists():
        return None
    return [*emulator(), "-L", UNPACKED, "-E", "LD_LIBRARY_PATH=/usr/lib/klayout", "-E", f"LD_PRELOAD={main_stack}", PROGRAM]


def make_links_relative(root):
    """Makes links that name a place of the unpacked system by its full path name it from where they stand."""
    for folder, folders, files in os.walk(root):
        for path in (Path(folder) / name for name in folders + files):
            if path.is_symlink() and os.readlink(path).startswith("/"):
                there = os.path.relpath(f"{root}{os.readlink(path)}", folder)
                path.unlink()
                path.symlink_to(there)


def unpack():
    """Downloads the packages and unpacks them."""
    apt = PEERS / "apt"
    for folder in ("state/lists/partial", "cache/archives/partial"):
        (apt / folder).mkdir(parents=True, exist_ok=True)
    (apt / "status").touch()
    (apt / "apt.conf").write_text(APT.format(apt), encoding="utf-8")
    told = {**os.environ, "APT_CONFIG": str(apt / "apt.conf")}
    subprocess.run(["apt-get", "update"], env=told, check=True)
    subprocess.run(["apt-get", "install", "--download-only", "-y", PACKAGE], env=told, check=True)
    for package in sorted((apt / "cache" / "archives").glob("*.deb")):
        subprocess.run(["dpkg-deb", "-x", package, UNPACKED], check=True)
    make_links_relative(UNPACKED)
    shutil.rmtree(apt)


def main():
    """Fetches KLayout, unless it is there."""
    if klayout("") is None:
        if NATIVE:
            subprocess.run(["apt-get", "install", "-y", PACKAGE], check=True)
        else:
            unpack()
    return 0


if __name__ == "__main__":
    sys.exit(main())
