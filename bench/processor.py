"""Processor times of a program's runs."""
import os
import re
import subprocess
import sys

RUNS = 5


def run(program, words, folder):
    """Runs the program, and answers its processor seconds, user and system, and the numbers of its line."""
    read, write = os.pipe()
    child = subprocess.Popen([program, *words], stdin=subprocess.DEVNULL, stdout=write, cwd=folder)
    os.close(write)
    with os.fdopen(read) as out:
        line = out.read()
    _, status, used = os.wait4(child.pid, 0)
    child.returncode = os.waitstatus_to_exitcode(status)
    if child.returncode:
        sys.exit(f"{' '.join(words)}: status {child.returncode}")
    return used.ru_utime, used.ru_stime, [int(word) for word in re.findall(r"\d+", line)]


def least(program, words, folder):
    """The least processor time of some runs, as user and system seconds, and the numbers of the line."""
    runs = [run(program, words, folder) for _ in range(RUNS)]
    return min(runs, key=lambda it: it[0] + it[1])


def beyond(program, words, empty, folder):
    """What the words take beyond those of a run that does nothing of it, and the numbers of the line."""
    user, system, numbers = least(program, words, folder)
    base_user, base_system, _ = least(program, empty, folder)
    return user - base_user, system - base_system, numbers
