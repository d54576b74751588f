"""Stops runs over double arrays at their calls one after another, and sees what is reopened: the last save that was answered, or the one in which the run was stopped.

    run.py PROGRAM [--rounds N] [--seed S] [--all]

A save of a small array of four boundaries is stopped at each call that writes: the process is killed before it or within it, or all calls fail from it on. So is
the second session over an array with a volume (with `--all` at each call on an image, else at those that write). And N long random runs are stopped at random
calls. Each time the images are judged by their bytes alone, and a further run reads each block. Where no process may be traced, nothing is seen. The status is 1
at the first difference.
"""
import argparse
import os
import random
import sys

HERE = os.path.dirname(os.path.abspath(__file__))
sys.dont_write_bytecode = True
sys.path.append(os.path.join(HERE, "..", "histories"))
import doubles  # noqa: E402
import opening  # noqa: E402
import stops  # noqa: E402
import traces  # noqa: E402
from history import Folder, Run, new_folder  # noqa: E402
from ledger import Difference, save_of, see  # noqa: E402
from model import array_of_line  # noqa: E402
from replies import Play  # noqa: E402
from rows import F, writes  # noqa: E402

HOWS = ("kill", "tear", "fail")
SMALL = ["safe 1024 16 4 8 2", *(f"write {block} {block + 16:02x}{block:02x}" for block in range(0, 16, 3)), "save"]
CHANGES = [*(f"write {block} {block + 160:02x}" * (block % 3 > 0) or f"write {block} -" for block in range(0, 16, 2)), "save"]


def images_behind(program, folder, lines):
    """The images that a replay leaves."""
    folder.put({})
    ended = stops.whole_run(program, ["replay"], folder.path, "".join(f"{line}\n" for line in lines).encode())
    see("the status of the replay", 0, ended.status)
    return folder.take()


def see_blocks(program, folder, array):
    """A further run gives each block as the array has it."""
    lines = traces.reads_of_all(array)
    ended = stops.whole_run(program, ["resume"], folder.path, "".join(f"{line}\n" for line in lines).encode())
    want = "".join(f"{part}\n" for line in lines for part in array.do(line)).encode()
    see("the blocks", (want, 0), (ended.output, ended.status))


def at_each_call(program, folder, images, lines, counted, see_state):
    """Stops a session at each of these calls, in each way. How many runs that were, and how many were reopened as they had saved."""
    trace, runs, new = "".join(f"{line}\n" for line in lines).encode(), 0, 0
    for how in HOWS:
        call, ended, states = 1, None, []
        while ended is None or ended.stopped is not None:
            folder.put(images)
            ended = stops.stopped_run(program, ["resume"], folder.path, trace, stops.Stop(how, 0, call), counted)
            try:
                states.append(see_state(folder.take(), ended))
            except Difference as difference:
                raise Difference(f"{how} at call {call} of a session: {difference}") from None
            call, runs = call + 1, runs + 1
        see(f"whether what was saved stays, once it is reopened ({how})", sorted(states), states)
        new += sum(states)
    return runs, new


def see_small(program, folder):
    """A save of a small array is stopped at each call that writes; whether the second state is reopened."""
    images = images_behind(program, folder, SMALL)
    before = opening.judge(images)
    after = opening.judge(images)
    old = save_of(before, before.saves)
    for line in CHANGES:
        after.do(line)
    new = save_of(after, after.saves)
    history = doubles.DoubleHistory(program, 0, folder)

    def see_state(found, ended):
        array = opening.judge(found)
        is_new = not isinstance(array, str) and array.saves == new.number
        history.see_fits(array, new if is_new else old, set(), set(), False)
        see("the state where the save was answered", True, is_new or b"saved 2" not in ended.output)
        see_blocks(program, folder, array)
        return is_new

    return at_each_call(program, folder, images, CHANGES, stops.WRITING, see_state)


def see_session(program, folder, counted):
    """The second session over an array with a volume: a file says `hello` or `jello`, and the latter wherever the save was answered."""
    images = images_behind(program, folder, ["safe 1024 128 4 64 2", *writes(F), "settle", "save"])

    def see_state(_, ended):
        given = stops.whole_run(program, ["cat", "/a"], folder.path, b"")
        see("the file's status, and what is told", (0, b""), (given.status, given.told))
        see("whether it is the old file or the new one", True, given.output in (b"hello", b"jello"))
        see("the file where the save was answered", True, given.output == b"jello" or b"saved 2" not in ended.output)
        return given.output == b"jello"

    return at_each_call(program, folder, images, ["write 34 6a656c6c6f", "save"], counted, see_state)


class LongRun(doubles.DoubleHistory):
    """A long replay that is stopped, and a further run that reads each block."""

    def go(self):
        self.folder.put({})
        self.first_run()
        array = opening.judge(self.images())
        if not isinstance(array, str):
            self.check_opened(array)
            self.counts["opened"] += 1
            see_blocks(self.program, self.folder, array)

    def first_run(self):
        rng = self.rng
        shape = traces.shape_of(rng, rng.random() < 0.5)
        lines = traces.mixed(rng, shape, rng.randrange(40, 250))
        lines = [f"safe {' '.join(map(str, shape))}", *traces.with_saves(rng, lines, 0.1)]
        self.play(["replay"], array_of_line(lines[0]), lines)

    def play(self, words, array, lines, source=None):
        self.begin(words, array)
        play = Play(array, lines)
        stop, front = self.pick_stop(play)
        run = Run(words, lines, stop)
        self.do(run, front)
        self.see_told(run)
        self.leave(run, play, self.see_replies(run, play), set(), source)


def main():
    parser = argparse.ArgumentParser()
    parser.add_argument("program")
    parser.add_argument("--rounds", type=int, default=50)
    parser.add_argument("--seed", type=int, default=1)
    parser.add_argument("--all", action="store_true")
    args = parser.parse_args()
    program = os.path.abspath(args.program)
    if not stops.may_trace():
        print("skipped: no process may be traced here")
        return
    with new_folder() as path:
        folder, told = Folder(path), []
        try:
            told.append("%d stops in a small save, behind %d of which it is reopened" % see_small(program, folder))
            told.append("%d stops in a session over a volume, behind %d of which the new file is there" % see_session(
                program, folder, stops.CALLS if args.all else stops.WRITING))
            opened = 0
            for number in range(args.rounds):
                run = LongRun(program, f"long {args.seed} {number}", folder)
                try:
                    run.go()
                except Difference as difference:
                    print(f"long run {number} of seed {args.seed}", *run.steps, sep="\n")
                    raise difference
                opened += run.counts["opened"]
            told.append(f"{args.rounds} long runs that are stopped, {opened} of them opened")
        except Difference as difference:
            print(difference)
            sys.exit(1)
    print("; ".join(told) + ": no difference")


if __name__ == "__main__":
    main()
