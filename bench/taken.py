"""What a run of a program takes: the processor's seconds in it, and the instructions that valgrind counts in it."""
import os
import re
import shutil
import subprocess
import sys


def seconds(program, words, stdin_path=os.devnull):
    """The processor's seconds in the program, and what it prints."""
    with open(stdin_path, "rb") as stdin:
        child = subprocess.Popen([program, *map(str, words)], stdin=stdin, stdout=subprocess.PIPE)
        printed = child.stdout.read().decode()
        _, status, usage = os.wait4(child.pid, 0)
    if status != 0:
        sys.exit(f"{program} {words} ended with wait status {status} and printed {printed!r}")
    return usage.ru_utime, printed


def least(program, runs, rounds):
    """The least seconds of each of some runs, made by turns so many times, and what they print. A run is its words and its input."""
    taken = [[seconds(program, *run) for run in runs] for _ in range(rounds)]
    return [min(one[which][0] for one in taken) for which in range(len(runs))], [one[1] for one in taken[0]]


def instructions(program, words, stdin_path=os.devnull, folder=None, wanted=0):
    """The instructions in the program, or None where there is no valgrind. The program is run in the folder, and is to end with the wanted status."""
    if not shutil.which("valgrind"):
        return None
    whole = ["valgrind", "--tool=callgrind", "--callgrind-out-file=/dev/null", program, *map(str, words)]
    with open(stdin_path, "rb") as stdin:
        ran = subprocess.run(whole, stdin=stdin, stdout=subprocess.DEVNULL, stderr=subprocess.PIPE, cwd=folder)
    found = re.search(r"Collected : (\d+)", ran.stderr.decode())
    if ran.returncode != wanted or not found:
        sys.exit(f"valgrind of {program} {words} ended with {ran.returncode}")
    return int(found.group(1))


def more(program, runs):
    """How many instructions the second run takes more than the first, or None where there is no valgrind."""
    one, other = (instructions(program, *run) for run in runs)
    return None if one is None else other - one
