#!/usr/bin/env python3
"""Proves the libraries of this repository side by side, each once those below it are proved, and hands them on.

    tools/libraries.py prove FOLDER [LANES]        proves all of them, in clones FOLDER/lane0 and on; FOLDER/proved gets each library that is proved
    tools/libraries.py hand FOLDER CLONE [CRATE..] gives CLONE all proved libraries, and of each CRATE what its checks kept, so that only changes are proved
    tools/libraries.py take GATE CLONE             gives CLONE the libraries that an `rt ci` in the clone GATE has proved so far, where CLONE has the same text; an
                                                   `rt ci CRATE..` works in a copy, /tmp/rt-copy-PID-*/repo: name that as GATE

`rt` locks a crate and all below it while it works, so two checks go side by side only in two clones. What is committed at the top is proved. A second `prove`
proves what has changed since. It isn't the verdict: that is `rt ci`.
"""
import os
import shutil
import subprocess
import sys
import threading
import time

import kit

TOP = os.path.dirname(os.path.dirname(os.path.abspath(__file__)))


def prove_one(clone, name):
    """Checks a library in a clone that has those below it, and builds it. This is a process of its own."""
    rt = kit.script("rt")
    os.chdir(clone)
    crate = rt.rtlib.Crate(f"{clone}/crates/{name}", clone, {})
    held = rt.rtlib.lock([*crate.below(), crate])
    lacking = [it.name for it in crate.below() if not it.is_built()]
    if lacking:
        sys.exit(f"not proved: {lacking}")
    if not crate.is_built():
        status = crate.check(["--jobs", "1"]) or crate.build_rlib(["--jobs", "1"], anew=False)
        sys.exit(status)
    del held


class Lanes:
    """The libraries that are proved, and those that are being proved."""
    word = "proved"

    def __init__(self, folder, count, top=TOP, names=None):
        """Those of the repository at this top, or some of them, which stand on no other ones."""
        os.makedirs(folder, exist_ok=True)
        self.folder, self.proved = folder, f"{folder}/proved"
        self.clones = [f"{folder}/lane{i}" for i in range(count)]
        for clone in (self.proved, *self.clones):
            if not os.path.isdir(clone):
                subprocess.run(["git", "clone", "-q", top, clone], check=True)
            subprocess.run(["git", "-C", clone, "pull", "-q", "--ff-only", top, "HEAD"], check=True)
        self.below = {it: below for it, below in kit.libraries_of(self.proved).items() if names is None or it in names}
        self.turn, self.ended, self.started = threading.Condition(), {}, set()

    def chain(self, name):
        """How many libraries stand on each other from this one upwards."""
        return 1 + max((self.chain(it) for it, below in self.below.items() if name in below), default=0)

    def next(self):
        """The library that is ready with the longest chain above it; None where none will be."""
        with self.turn:
            while True:
                left = [it for it in self.below if it not in self.started]
                ready = [it for it in left if all(self.ended.get(dep) for dep in self.below[it])]
                if ready:
                    name = max(ready, key=self.chain)
                    self.started.add(name)
                    return name
                if not left or self.started == {*self.ended}:
                    return None
                self.turn.wait()

    def work(self, clone):
        """Proves one library after another in a clone."""
        while (name := self.next()) is not None:
            for it in self.below:
                if it == name or self.ended.get(it):
                    kit.hand_library(self.proved, clone, it)
            if not os.path.isdir(f"{clone}/crates/{name}/out/incremental"):
                kit.hand_kept(self.proved, clone, name)
            start = time.monotonic()
            with open(f"{self.folder}/{name}.log", "w") as log:
                ran = subprocess.run([sys.executable, __file__, "one", clone, name], stdout=log, stderr=subprocess.STDOUT)
            if ran.returncode == 0:
                kit.hand_library(clone, self.proved, name)
                kit.hand_kept(clone, self.proved, name)
            print(f"{name}: {self.word if ran.returncode == 0 else f'NOT PROVED: {log.name}'}, {time.monotonic() - start:.0f} s", flush=True)
            with self.turn:
                self.ended[name] = ran.returncode == 0
                self.turn.notify_all()

    def run(self):
        """Whether all could be proved."""
        threads = [threading.Thread(target=self.work, args=(clone,)) for clone in self.clones]
        for it in threads:
            it.start()
        for it in threads:
            it.join()
        return all(self.ended.get(it) for it in self.below)


def take(gate, clone):
    """Gives a clone the libraries that the gate proved in another one: it leaves them without a stamp, and they fit each other alone."""
    rt, top, crates = kit.script("rt"), os.getcwd(), {}
    if os.path.samefile(gate, clone):
        sys.exit("a clone can't take its own libraries")
    for folder in (gate, clone):
        os.chdir(folder)
        crates[folder] = {it: rt.rtlib.Crate(f"{folder}/crates/{it}", folder, {}) for it in kit.libraries_of(clone)}
    for name, crate in crates[clone].items():
        made = crates[gate][name]
        kept = f"{made.rlib}/format"
        is_whole = os.path.isfile(kept) and time.time() - os.stat(kept).st_mtime > 10
        if not is_whole or crate.is_built() or crate.stamp() != made.stamp():
            continue
        to = f"{crate.folder}/out/rlib"
        shutil.rmtree(to, ignore_errors=True)
        os.makedirs(os.path.dirname(to), exist_ok=True)
        subprocess.run(["cp", "-al", f"{made.folder}/out/rlib", to], check=True)
        with open(f"{to}/stamp", "w", encoding="utf-8") as it:
            it.write(crate.stamp())
        print(name, flush=True)
    os.chdir(top)


def main(verb="", *words):
    if verb == "prove" and len(words) in (1, 2):
        sys.exit(not Lanes(os.path.abspath(words[0]), int(words[1]) if len(words) == 2 else os.cpu_count()).run())
    elif verb == "hand" and len(words) >= 2:
        folder, clone, *crates = words
        for name in kit.libraries_of(f"{folder}/proved"):
            kit.hand_library(f"{folder}/proved", clone, name)
        for name in crates:
            kit.hand_kept(f"{folder}/proved", clone, name)
    elif verb == "take" and len(words) == 2:
        take(*map(os.path.abspath, words))
    elif verb == "one" and len(words) == 2:
        prove_one(*words)
    else:
        sys.exit(__doc__)


if __name__ == "__main__":
    main(*sys.argv[1:])
