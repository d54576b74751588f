"""Replays traces of random writes and reads, and prints the time per event and the peak memory.

Three arrays are compared, of 2^10, 2^17 and 2^20 blocks of 1024 bytes, replayed by turns. From the least to the next the clock's time
per event may grow by a factor of 1.3 at most, and the processor's time in the program by one of 1.2 from the least to each; else the
exit status is 1. The traces, the replies and the image files stand in a temporary folder
(TMPDIR says where). Each reply is compared with that of a dictionary of blocks.
"""
import os
import random
import subprocess
import sys
import tempfile
import time

BLOCK = 1024
BOUNDARIES = 4
ROUNDS = 9
BITS = (10, 17, 20)


def write_trace(path, blocks, events, seed, kind="array"):
    """A trace of an array whose slots are twice its blocks, half of the events writes and half reads."""
    rng = random.Random(seed)
    slots = 2 * blocks // BOUNDARIES
    with open(path, "w") as out:
        out.write(f"{kind} {BLOCK} {blocks} {BOUNDARIES} {slots} 2\n")
        for _ in range(events):
            block = rng.randrange(blocks)
            if rng.random() < 0.5:
                out.write(f"write {block} {rng.randbytes(BLOCK).hex()}\n")
            else:
                out.write(f"read {block}\n")


def expected_replies(path):
    """The replies by a dictionary of blocks."""
    blocks = {}
    with open(path) as trace:
        next(trace)
        yield "ok\n"
        for line in trace:
            words = line.split()
            if words[0] == "write":
                blocks[words[1]] = bytes.fromhex(words[2]).rstrip(b"\0")
                yield "ok\n"
            else:
                yield f"data {blocks.get(words[1], b'').hex() or '-'}\n"


def peak_of(pid):
    """The peak memory of a running process in KiB, 0 where it has ended."""
    with open(f"/proc/{pid}/status") as status:
        for line in status:
            if line.startswith("VmHWM:"):
                return int(line.split()[1])
    return 0


def replay(program, folder, trace, replies):
    """One replay: its seconds by the clock, in the program, and in the system; and its peak memory in KiB."""
    peak = 0
    with open(trace, "rb") as stdin, open(replies, "wb") as stdout:
        start = time.monotonic()
        child = subprocess.Popen([program, "replay"], stdin=stdin, stdout=stdout, cwd=folder)
        ended = 0
        while not ended:
            peak = max(peak, peak_of(child.pid))
            time.sleep(0.005)
            ended, status, usage = os.wait4(child.pid, os.WNOHANG)
        clock = time.monotonic() - start
    if status != 0:
        sys.exit(f"the program ended with wait status {status}")
    return clock, usage.ru_utime, usage.ru_stime, peak


def check(trace, replies):
    with open(replies) as got:
        for number, want in enumerate(expected_replies(trace), 1):
            if got.readline() != want:
                sys.exit(f"reply {number} isn't as expected")
        if got.readline():
            sys.exit("more replies than events")


class Array:
    """The replays of one array: its trace, and what each of them took."""

    def __init__(self, folder, bits, events, seed):
        self.bits = bits
        self.events = events
        self.folder = os.path.join(folder, str(bits))
        self.trace = os.path.join(folder, f"trace-{bits}")
        self.replies = os.path.join(folder, f"replies-{bits}")
        self.rounds = []
        os.mkdir(self.folder)
        write_trace(self.trace, 1 << bits, events, seed)

    def replay(self, program):
        self.rounds.append(replay(program, self.folder, self.trace, self.replies))

    def least(self):
        """The least times of the rounds, in seconds per event: by the clock, of the processor, of it in the program."""
        check(self.trace, self.replies)
        clock = min(one[0] for one in self.rounds) / self.events
        processor = min(one[1] + one[2] for one in self.rounds) / self.events
        inside = min(one[1] for one in self.rounds) / self.events
        memory = max(one[3] for one in self.rounds)
        print(
            f"N = 2^{self.bits}: {1 / clock:,.0f} events/s by the clock, {1 / processor:,.0f} by the processor; per event "
            f"{clock * 1e6:.2f} us by the clock, {processor * 1e6:.2f} us of the processor, {inside * 1e6:.2f} us of these "
            f"in the program; peak memory {memory:,} KiB"
        )
        return clock, processor, inside


def main():
    program, events, seed = sys.argv[1], int(sys.argv[2]), int(sys.argv[3])
    with tempfile.TemporaryDirectory() as folder:
        arrays = [Array(folder, bits, events, seed) for bits in BITS]
        for _ in range(ROUNDS):
            for array in arrays:
                array.replay(program)
        small, *others = [array.least() for array in arrays]
    ratios = [[b / a for a, b in zip(small, other)] for other in others]
    for bits, ratio in zip(BITS[1:], ratios):
        print(
            "time per event at N = 2^{} to that at N = 2^{}: {:.2f} by the clock, {:.2f} of the processor, "
            "{:.2f} in the program".format(bits, BITS[0], *ratio)
        )
    sys.exit(ratios[0][0] > 1.3 or max(ratio[2] for ratio in ratios) > 1.2)


if __name__ == "__main__":
    main()
