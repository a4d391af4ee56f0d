"""Prints how fast the program is beside plain C programs of the same work, in one run: whole runs by the emulator, the
search for a best cut and the check of its log, and steps on files of many ranges and segments.

    python3 -m benchmarks.tables [PROGRAM]

PROGRAM is bin/rumtsafi if left out. The tables are
those of run.py, searches.py and files.py, which say what they hold. All are of processor time, the least of several
rounds in which the programs take turns, so that other work on the machine tells little; still, only figures of one run
can be compared. It ends with status 0 where all answers are right, and where the tools are missing, with a line that
says so.
"""
import sys

from benchmarks import files, run, searches
from benchmarks.common import CROSS, HOST, missing


def main():
    absent = missing(CROSS, HOST)
    if absent:
        print(absent)
        return 0
    for title, table in (("Runs", run.table), ("Search and check", searches.table), ("Steps", files.step_table)):
        print(f"\n{title}\n", flush=True)
        table()
    return 0


if __name__ == "__main__":
    sys.exit(main())
