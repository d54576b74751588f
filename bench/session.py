"""A replay that is talked to through pipes, and what the answer to one event takes.

The time by the clock is that from sending the event to its last line of reply. The processor's time is what the program took
meanwhile, in itself and in the system; what it took for the events before isn't in it.
"""
import os
import subprocess
import sys
import time

BATCH = 512
MORE_FOLLOWS = (b"bytes ", b"entry ", b"node ", b"block ")


class Session:
    """A replay in a folder of its own, on an array of this shape; the kind is `array` or `safe`."""

    def __init__(self, program, folder, shape, kind="array"):
        os.makedirs(folder, exist_ok=True)
        self.child = subprocess.Popen([program, "replay"], stdin=subprocess.PIPE, stdout=subprocess.PIPE, cwd=folder)
        self.all_well(["{} {} {} {} {} {}\n".format(kind, *shape)])

    def processor(self):
        """The processor's seconds of the program so far."""
        return time.clock_gettime(~self.child.pid << 3 | 2)

    def reply(self):
        """The lines of the next reply."""
        lines = [self.child.stdout.readline()]
        while lines[-1].startswith(MORE_FOLLOWS):
            lines.append(self.child.stdout.readline())
        if not lines[-1].endswith(b"\n"):
            sys.exit(f"the program ended with wait status {self.child.wait()}")
        return [line.decode().rstrip("\n") for line in lines]

    def ask(self, event):
        """The reply to an event, and the seconds of it: by the clock, and of the processor."""
        clock, processor = time.monotonic(), self.processor()
        self.child.stdin.write(f"{event}\n".encode())
        self.child.stdin.flush()
        lines = self.reply()
        return lines, time.monotonic() - clock, self.processor() - processor

    def expect(self, event, last):
        """The seconds of an event whose reply is to end with this line: by the clock, and of the processor."""
        lines, clock, processor = self.ask(event)
        if lines[-1] != last:
            sys.exit(f"the reply to {event} ends with {lines[-1]!r}, and not with {last!r}")
        return clock, processor

    def all_well(self, lines):
        """The processor's seconds of events that are each to be answered with `ok`."""
        start, batch = self.processor(), []
        for line in lines:
            batch.append(line)
            if len(batch) == BATCH:
                self.batch_well(batch)
                batch = []
        self.batch_well(batch)
        return self.processor() - start

    def batch_well(self, batch):
        """So few events that their replies fit into a pipe."""
        self.child.stdin.write("".join(batch).encode())
        self.child.stdin.flush()
        for _ in batch:
            if self.reply() != ["ok"]:
                sys.exit("an event wasn't answered with ok")

    def end(self):
        self.child.stdin.close()
        rest = self.child.stdout.read()
        if self.child.wait() != 0 or rest:
            sys.exit(f"the program ended with status {self.child.returncode} and {rest[:80]!r}")


def load():
    """The load of the machine, to stand beside what was measured."""
    return "load {:.1f}".format(os.getloadavg()[0])
