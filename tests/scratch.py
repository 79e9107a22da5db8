"""A scratch copy of a repository, in which the prover is given edits."""

import shutil


def copy_tree(root, folder):
    """Copies what the prover reads, without must-fail edits; the folder must not be there yet. What checks have left in out/ stays: `rt` finds
    by itself what was proved of the same files in another copy on this machine."""
    shutil.copytree(root / "crates", folder / "crates", ignore=shutil.ignore_patterns("must-fail", "out"))
    for name in ("crates.txt", "HANDLES"):
        if (root / name).is_file():
            shutil.copy(root / name, folder)
