#!/usr/bin/env python3
"""What a write costs where there are few files and where there are many.

On a new site in memory 100 files of one block are made, and in a second run 1,900, in directories of 100. Then 19,000 blocks
are written, one file after another, with a unit after each 100 writes and a checkpoint where few segments are clean. What a
run without these writes takes is taken off. It runs the program that `rt ci` or `rt run` leaves in crates/hl_bench/out/,
each run five times, and prints

  - the processor time of a write in both, user and system, the least of the five runs;
  - their ratio, which is to be at most 1.3;
  - the resolution of the processor clock.

    python3 bench/files.py [PROGRAM]
"""
import os
import sys
import time

from processor import beyond

FEW, MANY = 100, 1_900
WRITES = 19_000
MOST = 1.3


def main():
    top = os.path.dirname(os.path.dirname(os.path.abspath(__file__)))
    ready = os.path.join(top, "crates/hl_bench/out/hl_bench")
    program = os.path.abspath(sys.argv[1] if len(sys.argv) > 1 else ready)
    costs = []
    for files in (FEW, MANY):
        user, system, _ = beyond(program, ["files", str(files), str(WRITES)], ["files", str(files), "0"], top)
        costs.append((user + system) / WRITES)
        print(f"{files} files: {costs[-1] * 1e6:.1f} microseconds a write, over {WRITES} writes")
    print(f"ratio {costs[1] / costs[0]:.2f}, to be at most {MOST}")
    print(f"clock resolution {time.clock_getres(time.CLOCK_PROCESS_CPUTIME_ID)} s, told in microseconds")
    return 0 if costs[1] <= MOST * costs[0] else 1


if __name__ == "__main__":
    sys.exit(main())
