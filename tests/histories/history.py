"""One history: a replay, and then further runs on its images, between which these are changed.

Each run is judged by the bytes that it finds, and by what was written before.
"""
import collections
import os
import random
import re
import sys
import tempfile

HERE = os.path.dirname(os.path.abspath(__file__))
sys.path.append(os.path.join(HERE, "..", "soak"))
import between  # noqa: E402
import opening  # noqa: E402
import stops  # noqa: E402
import traces  # noqa: E402
from ledger import Difference, Ledger, see  # noqa: E402
from model import GOOD, array_of_line  # noqa: E402
from replies import REFUSED, Play, answer_to, check_failed_answer, check_tail  # noqa: E402
from saved import image_name, is_good  # noqa: E402

# Where files cost no disk, on most machines.
MEMORY = "/dev/shm"
# A save of a greater number has no next one in the end, which is told as want of memory.
LAST_SAVES = 1 << 62
NO_ARRAY = re.compile(rb"(no image in this folder|\d+ images?, none with a (label|label of its own|whole state behind its label))\n")
TOLD_OF_FAILURES = re.compile(rb"(member-\d\d-\d\.img: [a-z]+: Input/output error\n|\d+ images?[^\n]*\n|no image in this folder\n)*")


def good_of(array):
    """The good members, by the array's first line."""
    return {opening.member_of(array, m) for m in range(2 * array.b) if array.members[m // 2][m % 2] == GOOD}


def new_folder():
    """A folder in memory, where the machine has one: a save flushes its images."""
    is_there = "TMPDIR" not in os.environ and os.access(MEMORY, os.W_OK)
    return tempfile.TemporaryDirectory(dir=MEMORY if is_there else None)


class Folder:
    """A folder whose images are those of one history after another."""

    def __init__(self, path):
        self.path, self.there = path, {}

    def name(self, member):
        return os.path.join(self.path, image_name(member))

    def put(self, images):
        for member in set(self.there) - set(images):
            os.remove(self.name(member))
        for member, image in images.items():
            if self.there.get(member) != image:
                with open(self.name(member), "wb") as file:
                    file.write(image)
        self.there = dict(images)

    def take(self):
        found = {}
        for name in os.listdir(self.path):
            if re.fullmatch(r"member-\d\d-\d\.img", name):
                with open(os.path.join(self.path, name), "rb") as file:
                    found[2 * int(name[7:9]) + int(name[10])] = file.read()
        self.there = found
        return dict(found)


class Run:
    """A command with its trace, how it is stopped, if it is, and how it ended."""

    def __init__(self, words, lines=(), stop=None):
        self.words, self.lines, self.stop, self.ended = words, list(lines), stop, None

    def trace(self, events=None):
        return "".join(f"{line}\n" for line in self.lines[:events]).encode("latin-1")

    def told(self):
        end = f", stopped: {self.stop}" if self.stop else ""
        return "\n".join([f"dgraid {' '.join(self.words)}{end}", *(f"    {line}" for line in self.lines)])


class History:
    """A history that is decided by its seed, of a plain array."""

    word, changes = "array", between

    def __init__(self, program, seed, folder):
        self.program, self.folder = program, folder
        self.rng = random.Random(f"history {seed}")
        self.steps, self.counts, self.ledger = [], collections.Counter(), Ledger()
        # the disks by their members; what they were before each run, and those of them that could be opened
        self.disks, self.older, self.openable, self.is_back = {}, [], [], False

    def images(self):
        return {member: disk.image for member, disk in self.disks.items()}

    def go(self):
        self.folder.put({})
        self.first_run()
        for _ in range(self.rng.randrange(1, 6)):
            self.remember()
            self.change()
            self.further_run()
            if not self.openable:
                break

    # what happens between two runs

    def remember(self):
        """What the run before left, before it is changed by hand: it can be opened just as it was saved, if it can."""
        self.older.append(dict(self.disks))
        answer = opening.judge(self.images())
        if not isinstance(answer, str):
            self.check_opened(answer)
            self.openable.append(dict(self.disks))

    def check_opened(self, array):
        """Sees that an array that was opened is as it was saved, where that can be told, and says of what it was made."""
        return self.ledger.check_opened(array, self.disks)

    def change(self):
        is_open = self.openable and self.openable[-1] == self.disks
        self.is_back = bool(self.openable) and self.rng.random() < (0.3 if is_open else 0.85)
        if self.is_back:
            self.disks = dict(self.rng.choice(self.openable))
            self.tell(["all members are as before an earlier run"])
        if self.rng.random() < (0.4 if self.is_back else 0.8):
            self.tell(self.changes.change_some(self.rng, self.disks, self.older))

    def tell(self, changes):
        self.steps += changes
        self.counts["changes"] += len(changes)

    # runs

    def do(self, run, front=0):
        """The run, by which the images may change; `front` is the number of events behind which it is killed where it can't be traced."""
        self.steps.append(run.told())
        self.counts["runs"] += 1
        self.folder.put(self.images())
        given = self.program, run.words, self.folder.path
        if run.stop is None:
            run.ended = stops.whole_run(*given, run.trace())
        elif stops.may_trace():
            run.ended = stops.stopped_run(*given, run.trace(), run.stop)
        else:
            run.ended = stops.killed_run(*given, run.trace(front), run.stop.behind)
        if run.ended.stopped is None:
            run.stop = None
        self.counts["stops"] += run.stop is not None
        allowed = (0, 6, 7, 8, None) if run.stop else (0, 6, 7, 8)
        if run.ended.status not in allowed:
            raise Difference(f"the run ended with {run.ended}")
        return run.ended

    def calls_of_save(self, array):
        """About how many calls on images a save makes."""
        return 6 * array.boundaries + 8

    def pick_stop(self, play):
        """How a trace is stopped, and the events that are answered before."""
        rng, many = self.rng, self.calls_of_save(play.array)
        saves = [event for event, line in enumerate(play.lines) if line == "save" or event and play.lines[event - 1] == "save"]
        front = rng.choice(saves) if saves and rng.random() < 0.65 else rng.randrange(len(play.lines) + 1)
        few = [1, 1, 1, 2, 2, 3, 4, rng.randrange(1, many)]
        call = rng.randrange(1, 2 * many) if front in saves else rng.randrange(1, many) if front == 0 else rng.choice(few)
        return stops.Stop(rng.choice(["fail", "fail", "kill", "kill", "tear"]), len(play.output(front)), call), front

    def play(self, words, array, lines, source=None):
        """A trace on an array, which is a blank one of a replay or was opened by the body of a member; what it leaves is judged."""
        good = good_of(array)
        self.begin(words, array)
        play = Play(array, lines)
        stop, front = self.pick_stop(play) if self.rng.random() < (0.25 if words == ["replay"] else 0.45) else (None, 0)
        run = Run(words, lines, stop)
        self.do(run, front)
        self.see_told(run)
        begun = self.see_replies(run, play)
        self.leave(run, play, begun, good, source)

    def begin(self, words, array):
        """A trace is to be played on this array, which the model changes then."""

    def see_told(self, run):
        told, status = run.ended.told, run.ended.status
        pattern = re.compile(b"") if status is None else TOLD_OF_FAILURES if run.stop else NO_ARRAY if status == 6 else re.compile(b"")
        if not pattern.fullmatch(told):
            raise Difference(f"standard error: {told!r:.1000}")

    def see_replies(self, run, play):
        """Judges the output of a trace. How many events were begun while calls were made that didn't fail."""
        output, status, _, stopped = run.ended
        if run.stop is None:
            see("replies", play.output(), output)
            see("the status", 0, status)
            return len(play.lines)
        before = play.answered(output[:stopped])
        if status is None:
            see("the replies before the process was killed", play.output()[:len(output)], output)
            return before + 1
        if status in REFUSED.values():
            self.see_failed_opening(output, status)
            see("events before an array that isn't opened", 0, before)
            return 0
        see("the status", 0, status)
        check_tail(play, before, output)
        return before + 1

    def see_failed_opening(self, output, status):
        """No array can be opened where calls fail, and it is unclean only where a seal is open."""
        allowed = [("nostate", 6)] + [("unclean", 7)] * opening.has_opened_label(self.images())
        if (output.decode("latin-1").strip("\n"), status) not in allowed:
            raise Difference(f"an opening while calls fail: {output!r:.200}, status {status}")

    # what a run leaves

    def leave(self, run, play, begun, good, source):
        """Judges the images behind a trace of which so many events were begun, and takes them over. The members that were good, and the one whose body was read."""
        images, before, lines = self.folder.take(), self.disks, play.lines[:begun]
        self.ledger.note_writes(lines, play.array.l)
        if run.words != ["replay"] and all(line.split(" ")[0] in traces.READING for line in lines):
            self.see_unchanged(images)
        replaced = {2 * int(line.split(" ")[1]) + int(line.split(" ")[2]) for line in lines if line.startswith("replace ")}
        for member in set(before) - good - replaced:
            if images.get(member) != before[member].image:
                raise Difference(f"member {member}, which is out, was changed")
        saves = {save.number: save for event, save in play.saves.items() if event < begun}
        self.counts["in saves"] += run.stop is not None and begun - 1 in play.saves
        is_spoiled = any(before[member].is_spoiled for member in {*good, source} if member in before)
        self.disks = self.ledger.disks_after(before, images, saves, is_spoiled)
        self.see_seals(run, play, begun)

    def see_unchanged(self, images):
        if images != self.images():
            changed = sorted(m for m in {*images, *self.disks} if m not in self.disks or images.get(m) != self.disks[m].image)
            raise Difference(f"nothing was written, and these images are changed: {changed}")

    def see_seals(self, run, play, begun):
        """Behind a save each member that was good then has it as long as nothing is written; and no good member is sealed once something was."""
        done = begun - (run.stop is not None)
        last = max((event for event in play.saves if event < done), default=-1)
        since = play.lines[last + 1:begun]
        if last >= 0 and all(line.split(" ")[0] in traces.READING for line in since):
            save = play.saves[last]
            for member in (m for m, is_in in enumerate(save.good) if is_in):
                if member not in self.disks or self.disks[member].save is not save:
                    raise Difference(f"member {member} hasn't what was saved, and nothing was written behind it")
        elif run.stop is None and any(play.wrote[last + 1:]):
            for member, disk in self.disks.items():
                label = opening.label_of(member, disk.image)
                if is_good(play.array, member) and label and label.sealed:
                    raise Difference(f"the seal of member {member} is as it was, and something was written")

    def first_run(self):
        lines = traces.first_trace(self.rng, self.word)
        self.play(["replay"], array_of_line(lines[0]), lines)

    def further_run(self):
        answer = opening.judge(self.images())
        if isinstance(answer, str):
            self.counts[answer] += 1
            self.refused_run(answer)
            return
        self.counts["opened"] += 1
        self.counts[self.check_opened(answer)] += 1
        if answer.is_sure:
            self.opened_run(answer)
        else:
            self.unsure_run(answer)

    def pick_words(self):
        path = self.rng.choice(traces.PATHS)
        return self.rng.choice([["resume"], ["resume"], ["resume"], ["resume"], ["status"], ["cat", path], ["ls", path]])

    def pick_early_stop(self):
        """A stop of a command that opens the array and reads."""
        how = self.rng.choice(["fail", "fail", "kill"])
        return stops.Stop(how, 0, self.rng.randrange(1, 3 * len(self.disks) + 6)) if stops.may_trace() and self.rng.random() < 0.25 else None

    def refused_run(self, answer):
        words = self.pick_words()
        run = Run(words, ["write 0 00", "save"] if words == ["resume"] else [], self.pick_early_stop())
        output, status, *_ = self.do(run)
        self.see_told(run)
        if run.stop is None:
            see(" ".join(words), (f"{answer}\n".encode(), REFUSED[answer]), (output, status))
        elif status is not None:
            self.see_failed_opening(output, status)
        else:
            see("what was printed before the process was killed", b"", output)
        self.see_unchanged(self.folder.take())

    def trace_for(self, array):
        return traces.further_trace(self.rng, array)

    def may_save(self, array):
        """Whether there is a next save; else it is told as want of memory."""
        return array.saves < LAST_SAVES

    def opened_run(self, array):
        words = ["resume"] if self.is_back else self.pick_words()
        if words == ["resume"]:
            lines = self.trace_for(array)
            lines = lines if self.may_save(array) else [line for line in lines if line != "save"]
            return self.play(words, array, lines, array.source)
        run = Run(words, (), self.pick_early_stop())
        output, status, *_ = self.do(run)
        self.see_told(run)
        if run.stop is None:
            see(" ".join(words), answer_to(array, words), (output, status))
        elif status is None:
            see("what was printed before the process was killed", answer_to(array, words)[0][:len(output)], output)
        elif status in REFUSED.values():
            self.see_failed_opening(output, status)
        else:
            check_failed_answer(array, words, output, status)
        self.see_unchanged(self.folder.take())

    # arrays whose good members don't agree

    def unsure_run(self, array):
        """Each block is given as one of the good members has it. Then the images are as before they were changed."""
        run = Run(["resume"], traces.reads_of_all(array))
        output, status, *_ = self.do(run)
        self.see_told(run)
        see("the status", 0, status)
        lines, values = output.decode().split("\n")[:-1], opening.values_by_block(array, self.images())
        see("the number of replies", array.n, len(lines))
        touched = any(disk.is_spoiled for disk in self.disks.values())
        for block, line in enumerate(lines):
            given = None if line == "unavailable" else bytes.fromhex(line.split(" ")[1].strip("-")).ljust(array.l, b"\0")
            if given not in (values[block] or {None}) or given is not None and not touched and not self.ledger.may_give(block, given):
                raise Difference(f"block {block} is given as {line:.200}; the good members have {values[block]!r:.500}")
        self.see_unchanged(self.folder.take())
        self.counts["unsure"] += 1
        self.disks = dict(self.older[-1])
