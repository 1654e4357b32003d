#!/usr/bin/env python3
"""How much of a run's processor time goes beyond touching its bytes once, and how much memory it takes.

Makes an input of 17,000 lines and about 120 MB (writes of up to 65,536 bytes, reads, new files), runs the program that
`rt ci` or `rt run` leaves in crates/highlight/out/ on it, over a disk that its `mkfs` made, and prints

  - the processor time of the program, that of `sha256sum` over the same input and output, and their ratio;
  - the peak memory of the program, the bytes of the files that the script leaves, and the difference.

    python3 bench/throughput.py [PROGRAM]
"""
import hashlib
import os
import random
import subprocess
import sys
import tempfile
import time

LINES = 17_000
FILES = 24
LARGEST_FILE = 160_000
LARGEST_WRITE = 65_536
LARGEST_READ = 32_768


def script(out):
    """Writes the script, and answers the bytes of the files that it leaves."""
    draw = random.Random(1993)
    sizes = {}
    noise = draw.randbytes(1 << 20).hex()
    for number in range(LINES):
        if len(sizes) < FILES and number % 8 == 0:
            name = f"/file-{len(sizes):02}"
            sizes[name] = 0
            out.write(f"create {name}\n")
            continue
        name = draw.choice(sorted(sizes))
        if draw.random() < 0.62:
            length = min(LARGEST_WRITE, 1 + int(draw.expovariate(1 / 5_800)))
            at = draw.randrange(min(LARGEST_FILE - length, sizes[name] + 4_096))
            start = 2 * draw.randrange(len(noise) // 2 - length)
            out.write(f"write {name} {at} {noise[start:start + 2 * length]}\n")
            sizes[name] = max(sizes[name], at + length)
        else:
            at = draw.randrange(sizes[name] + 1)
            out.write(f"read {name} {at} {draw.randrange(1, LARGEST_READ // 4)}\n")
    return sum(sizes.values())


def peak(pid):
    """The most memory that a running process has held so far, in bytes: 0 where it is gone."""
    try:
        with open(f"/proc/{pid}/status") as lines:
            for line in lines:
                if line.startswith("VmHWM:"):
                    return int(line.split()[1]) * 1024
    except OSError:
        pass
    return 0


def run(words, source, sink, folder):
    """Runs a command, and answers its status, its processor seconds and its peak memory in bytes.

    The peak is looked up while it runs, since what the system tells afterwards counts this program's own memory too.
    """
    child = subprocess.Popen(words, stdin=source, stdout=sink, cwd=folder)
    memory = 0
    while True:
        pid, status, used = os.wait4(child.pid, os.WNOHANG)
        if pid:
            return os.waitstatus_to_exitcode(status), used.ru_utime + used.ru_stime, memory
        memory = max(memory, peak(child.pid))
        time.sleep(0.002)


def main():
    top = os.path.dirname(os.path.dirname(os.path.abspath(__file__)))
    program = os.path.abspath(sys.argv[1] if len(sys.argv) > 1 else os.path.join(top, "crates/highlight/out/highlight"))
    with tempfile.TemporaryDirectory() as folder:
        given, said = os.path.join(folder, "input"), os.path.join(folder, "output")
        with open(given, "w") as out:
            tree = script(out)
        run([program, "mkfs"], subprocess.DEVNULL, subprocess.DEVNULL, folder)
        with open(given, "rb") as source, open(said, "wb") as sink:
            status, seconds, memory = run([program, "run"], source, sink, folder)
        _, touching, _ = run(["sha256sum", given, said], subprocess.DEVNULL, subprocess.DEVNULL, folder)
        with open(said, "rb") as answers:
            text = answers.read()
        size = os.path.getsize(given)
    refused = text.count(b"err ")
    print(f"input {size} bytes in {LINES} lines, output {len(text)} bytes, {text.count(10)} answers, {refused} refusals, status {status}")
    print(f"output digest {hashlib.sha256(text).hexdigest()}")
    print(f"program {seconds:.2f} s, sha256sum {touching:.2f} s, ratio {seconds / touching:.2f}")
    print(f"peak memory {memory} bytes, files {tree} bytes, beyond them {memory - tree} bytes")
    return 0 if status == 0 else 1


if __name__ == "__main__":
    sys.exit(main())
