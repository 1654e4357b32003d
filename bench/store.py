#!/usr/bin/env python3
"""What a store costs beyond the disk calls that it makes.

4,000 blocks of 4,096 bytes are put into a store in units of 64 blocks, each unit is flushed, and all are read back, over a
file in a new folder. Beside that the same number of writes of the same number of blocks, the same syncs and as many reads
as the store made are made directly of the same kind of disk. Both begin with the first image of a site of 80 log segments,
and what a run without a block takes is taken off. Each part of the log carries a digest of its blocks, by its format, so the
time that `sha256sum` takes over as many bytes is told too. It runs the program that `rt ci` or `rt run` leaves in
crates/hl_bench/out/, each run five times, and prints

  - the calls of both;
  - the processor time of both and of the digests, user and system, the least of the five runs;
  - the ratio of the store's to that of the direct calls alone, and to that of these with the digests, which is to be at most 2;
  - the resolution of the processor clock.

    python3 bench/store.py [PROGRAM]
"""
import os
import sys
import tempfile
import time

from processor import beyond

BLOCKS = 4_000
MOST = 2.0


def digests(blocks, folder):
    """What `sha256sum` takes over so many blocks, in processor seconds."""
    for name, count in (("blocks", blocks), ("none", 0)):
        with open(os.path.join(folder, name), "wb") as out:
            out.write(os.urandom(4_096 * count))
    user, system, _ = beyond("sha256sum", ["blocks"], ["none"], folder)
    return user + system


def main():
    top = os.path.dirname(os.path.dirname(os.path.abspath(__file__)))
    ready = os.path.join(top, "crates/hl_bench/out/hl_bench")
    program = os.path.abspath(sys.argv[1] if len(sys.argv) > 1 else ready)
    with tempfile.TemporaryDirectory(dir=top) as folder:
        user, system, (writes, blocks, syncs, reads) = beyond(program, ["store", str(BLOCKS)], ["store", "0"], folder)
        words = ["direct", str(writes // 2), str(blocks), str(reads)]
        direct_user, direct_system, direct = beyond(program, words, ["direct", "0", "0", "0"], folder)
        digest_time = digests(blocks, folder)
    store_time, direct_time = user + system, direct_user + direct_system
    print(f"{BLOCKS} blocks in units of 64")
    print(f"store: {writes} writes of {blocks} blocks, {syncs} syncs, {reads} reads: user {user:.4f} s, system {system:.4f} s")
    print("direct: {} writes of {} blocks, {} syncs, {} reads:".format(*direct), end="")
    print(f" user {direct_user:.4f} s, system {direct_system:.4f} s")
    both = direct_time + digest_time
    print(f"store {store_time:.4f} s, direct {direct_time:.4f} s, digests {digest_time:.4f} s")
    print(f"ratio to the direct calls {store_time / direct_time:.2f}, with the digests {store_time / both:.2f}, to be at most {MOST}")
    print(f"clock resolution {time.clock_getres(time.CLOCK_PROCESS_CPUTIME_ID)} s, told in microseconds")
    return 0 if store_time <= MOST * both else 1


if __name__ == "__main__":
    sys.exit(main())
