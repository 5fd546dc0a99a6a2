#!/usr/bin/env python3
"""Tries wrong bodies that the gate does not: each must be refused by the contracts of its crate.

    bench/edits.py [CRATE ..]      these crates, or all that have some

The edits stand in bench/edits/CRATE. They are put into a copy of the repository as it stands here, what is not
committed included, in the place of those that the gate tries, and `rt must-fail` proves the crate with each of them.
To be run when a crate's clauses change: a crate takes the time of its proof, and of a check for each edit. Exit status
0 where each was refused, 1 otherwise."""

import argparse
import os
import shutil
import subprocess
import sys
import tempfile

HERE = os.path.dirname(os.path.abspath(__file__))
TOP = os.path.dirname(HERE)
EDITS = os.path.join(HERE, "edits")


def copied(folder, crates):
    """A copy of the repository in a folder, which has these crates' edits of bench/edits and no others."""
    copy = os.path.join(folder, "copy")
    shutil.copytree(TOP, copy, ignore=shutil.ignore_patterns("out", ".git"))
    for crate in os.listdir(os.path.join(copy, "crates")):
        shutil.rmtree(os.path.join(copy, "crates", crate, "must-fail"), ignore_errors=True)
    for crate in crates:
        shutil.copytree(os.path.join(EDITS, crate), os.path.join(copy, "crates", crate, "must-fail"))
    return copy


def main():
    known = sorted(os.listdir(EDITS))
    parser = argparse.ArgumentParser(description=__doc__, formatter_class=argparse.RawDescriptionHelpFormatter)
    parser.add_argument("crates", metavar="CRATE", nargs="*", help="a crate (default: all that have edits)")
    crates = parser.parse_args().crates or known
    for crate in crates:
        if crate not in known:
            sys.exit(f"edits.py: no edits of {crate}; there are those of {', '.join(known)}")
    with tempfile.TemporaryDirectory() as folder:
        copy = copied(folder, crates)
        status = subprocess.run(["rt", "must-fail", *crates], cwd=copy).returncode
    sys.exit(1 if status else 0)


if __name__ == "__main__":
    main()
