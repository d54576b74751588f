"""The calls of a program's run with the instructions that they take, as valgrind's callgrind counts them."""
import collections
import os
import re
import subprocess
import sys

NAMED = re.compile(r"(c?fn)=\((\d+)\)(?: (.*))?")
COST = re.compile(r"[+\-*\d]\S* (\d+)")


class Calls:
    """Of each function the instructions of its own, and those of each function that it calls, with all that this one calls."""

    def __init__(self, lines):
        self.own, self.callees = collections.Counter(), collections.defaultdict(collections.Counter)
        names, now, callee = {}, None, None
        is_call = False
        for line in lines:
            if found := NAMED.match(line):
                which, number, name = found.groups()
                names.setdefault(number, name)
                now, callee = (names[number], None) if which == "fn" else (now, names[number])
            elif line.startswith("calls="):
                is_call = True
            elif now is not None and (found := COST.match(line)):
                if is_call:
                    self.callees[now][callee] += int(found.group(1))
                else:
                    self.own[now] += int(found.group(1))
                is_call = False

    def whole(self, function):
        """The instructions of a function with all that it calls."""
        return self.own[function] + self.callees[function].total()

    def deepest(self, start, share, within):
        """The last function on the way down from one where each has nearly all that the first one has, and a name that begins so."""
        least, seen = self.whole(start) * share, set()
        while start not in seen:
            seen.add(start)
            further = [name for name, count in self.callees[start].most_common(1) if count >= least and name.startswith(within)]
            start = further[0] if further else start
        return start


def calls_of(program, words, folder):
    """The calls of a run in a folder, which is to end with status 0."""
    path = os.path.join(folder, "callgrind")
    whole = ["valgrind", "--tool=callgrind", f"--callgrind-out-file={path}", program, *words]
    ran = subprocess.run(whole, stdin=subprocess.DEVNULL, stdout=subprocess.DEVNULL, stderr=subprocess.DEVNULL, cwd=folder)
    if ran.returncode != 0:
        sys.exit(f"valgrind of {program} {words} ended with {ran.returncode}")
    with open(path) as lines:
        return Calls(lines)
