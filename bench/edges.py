#!/usr/bin/env python3
"""The edges of the program on a real system: words, folders, streams that are closed or full, full disks, limits, two programs on one
folder, and damage. Each check has a fresh folder.

    bench/edges.py [PROGRAM] [--folder DIR] [--only NAME ..] [--bytes N] [--list]

One line for each check: ok, FAIL, or skip where the system or the user does not let it be tried, and what was seen. The exit
status is 1 where any failed. As root a small disk of its own is mounted within the fresh folder, and unmounted again.
"""

import signal
import subprocess
import sys

import common
from bed import CHECKS, LONG, Bed, Skip, Wrong

# Each of these brings its checks.
import edges_streams
import edges_stores
import edges_collections
import edges_causes
import edges_names
import edges_workers


def run_one(act, given):
    """Runs a check, and prints its line. False where it failed."""
    with common.fresh_folder(given.folder) as base:
        bed = Bed(given.program, base, given.bytes)
        signal.alarm(LONG)
        try:
            word, seen = "ok", act(bed)
        except Skip as why:
            word, seen = "skip", why
        except (Wrong, common.Ended, OSError, subprocess.SubprocessError) as wrong:
            word, seen = "FAIL", wrong
        finally:
            signal.alarm(0)
            bed.close()
    print(f"{word:<5} {act.__name__}: {seen}", flush=True)
    return word != "FAIL"


def hangs(*_):
    raise Wrong(f"it has no end within {LONG} s")


def main():
    signal.signal(signal.SIGALRM, hangs)
    parser = common.options(__doc__)
    parser.add_argument("--only", nargs="+", metavar="NAME", help="these checks alone")
    parser.add_argument("--bytes", type=int, default=10000000, help="of the script in pieces (default: %(default)s)")
    parser.add_argument("--list", action="store_true", help="names the checks")
    given = parser.parse_args()
    if given.list:
        print("\n".join(act.__name__ for act in CHECKS))
        return
    given = common.parsed(parser)
    chosen = [act for act in CHECKS if not given.only or act.__name__ in given.only]
    passed = [run_one(act, given) for act in chosen]
    print(f"{sum(passed)} of {len(passed)} without a failure")
    sys.exit(0 if all(passed) and passed else 1)


if __name__ == "__main__":
    main()
