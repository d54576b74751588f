"""Does random operations on groups of disks with parity, and compares each answer, and the bytes of the disks, with a plain model.

    run.py PROGRAM [--operations N] [--seed S] [--arrays N]

PROGRAM is that of crates/parity_bench. Each array gets one session after another: its disks are put on a rack, some of them away or with another byte in the
header, some calls fail, and the rack is opened and called. Before that, the script sees that it finds programs that do wrong. The status is 1 where
anything differs; what was asked and answered then is left in the folder `parity-wrong`.
"""
import argparse
import collections
import os
import subprocess
import sys

from arrays import Array
from model import Wrong
from sessions import GROUPS, Session, judge
from spoiled import SPOILERS

SECONDS = 300
# operations of a session
COUNT = 20


def answers(program, texts):
    """What the program prints of some sessions."""
    given = "".join(f"{line}\n" for text in texts for line in text)
    done = subprocess.run([program, "replay"], input=given.encode(), capture_output=True, timeout=SECONDS)
    if done.returncode != 0 or done.stderr:
        raise Wrong(f"the program ended with {done.returncode} and {done.stderr[:200]!r}")
    return given, done.stdout.decode().split("\n")[:-1]


def keep(given, lines):
    """Leaves what was asked and answered."""
    os.makedirs("parity-wrong", exist_ok=True)
    for name, text in (("asked", given), ("answered", "".join(f"{line}\n" for line in lines))):
        with open(f"parity-wrong/{name}", "w") as file:
            file.write(text)


def one_round(program, arrays, sessions):
    """A session of each array, and what was seen of them."""
    given, lines = answers(program, [session.lines() for session in sessions])
    seen, rest = collections.Counter(), lines
    for array, session in zip(arrays, sessions):
        try:
            judged = judge(session, rest)
        except (Wrong, ValueError, IndexError) as wrong:
            keep("".join(f"{line}\n" for line in session.lines()), rest)
            raise Wrong(f"{wrong}") from wrong
        array.ended(judged.groups, judged.disks)
        seen, rest = seen + judged.seen, judged.rest
    if rest:
        raise Wrong(f"{len(rest)} lines too many")
    return seen


def find_wrong(program, spoil, seed):
    """How many sessions are so spoiled until the script finds that. Ends where it doesn't."""
    array, count = Array(f"{seed} {spoil.__name__}"), 0
    session = array.first(COUNT)
    for _ in range(400):
        text = spoil(session)
        _, lines = answers(program, [text or session.lines()])
        count += text is not None
        try:
            judged = judge(session, lines)
        except (Wrong, ValueError, IndexError):
            if text is None:
                raise
            return count
        if count >= 20:
            break
        array.ended(judged.groups, judged.disks)
        session = array.next(COUNT)
    sys.exit(f"{spoil.__name__} was not found in {count} sessions")


def last(array):
    """A session in which each disk is there, and comes back where it is out."""
    array.instead = {}
    width = max(group.width for group in array.kept.values())
    mends = [f"mend {group} {place}" for group in range(GROUPS) for place in range(width)]
    return Session(0, array.images, [], mends, array.kept)


def play(program, arrays, total):
    """So many operations on the arrays, by turns, and what was seen of them."""
    seen = collections.Counter()
    sessions = [array.first(COUNT) for array in arrays]
    while seen["operations"] < total:
        seen += one_round(program, arrays, sessions)
        sessions = [array.next(COUNT) for array in arrays]
    return seen


def main():
    parser = argparse.ArgumentParser()
    parser.add_argument("program")
    parser.add_argument("--operations", type=int, default=2000)
    parser.add_argument("--seed", type=int, default=1)
    parser.add_argument("--arrays", type=int, default=10)
    asked = parser.parse_args()
    try:
        found = {spoil.__name__: find_wrong(asked.program, spoil, asked.seed) for spoil in SPOILERS}
        arrays = [Array(f"{asked.seed} {number}") for number in range(asked.arrays)]
        seen = play(asked.program, arrays, asked.operations)
        stripes = one_round(asked.program, arrays, [last(array) for array in arrays])["even"]
    except Wrong as wrong:
        sys.exit(f"{wrong}; the session is in parity-wrong")
    print("wrong programs were found: " + ", ".join(f"{name} in {count} sessions" for name, count in found.items()))
    print(
        f"{seen['operations']} operations, {seen['without']} on a group without a disk and {seen['lost']} on a lost one; {seen['fell']} calls failed, {seen['away']} disks were away at an opening, "
        f"and {seen['back']} back that had been out: no difference. In the end {stripes} stripes are even, {seen['even']} at all ends of sessions"
    )


if __name__ == "__main__":
    main()
