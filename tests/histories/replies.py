"""What the program is to answer: the model's replies to a trace, the answers of the other commands, and what may be answered where calls fail."""
import copy
import os
import re
import sys

HERE = os.path.dirname(os.path.abspath(__file__))
sys.path.append(os.path.join(HERE, "..", "soak"))
from ledger import Difference, save_of, see  # noqa: E402
from lines import FIRST  # noqa: E402
from saved import Round  # noqa: E402

REFUSED = {"nostate": 6, "unclean": 7}
# The lines that go on with a reply, by the event.
MORE = {"cat": r"bytes [0-9a-f]+", "ls": r"entry .+", "tree": r"node .+", "pending": r"block \d+", "lostfiles": r"lost \d+ /.*"}
READ = r"unavailable|notfound|notdir|notregular|bad [a-z]+|not settled|cut 0"
# The last line of a reply to an event that is begun when all calls on images fail.
FAILED = {
    "array": "ok", "safe": "ok", "write": r"degraded|range", "read": r"unavailable|range|data -", "fail": r"ok|already|range", "replace": r"failed|not out|lost \d+|range",
    "rebuild": r"failed|lost \d+|not filling|range|copied 0 \d+", "settle": r"settled|lost \d+|malformed [a-z]+ \d+|nospace .+",
    "tend": r"tended 0 \d+|lost \d+|nospace .+", "diffuse": r"diffused 0|not settled|lost \d+", "who": r".+", "pending": r"end \d+", "cat": READ,
    "ls": READ, "tree": READ, "home": READ, "lostfiles": READ, "save": r"lost \d+|not saved", "regroup": r"whole|too few|regrouped \d+ \d+",
    "drop": "not parity", "mend": "not parity",
}
# And that of one in which they begin to fail, beside the reply of the model: a part of it was done.
STOPPED = {
    "write": "ok", "replace": "ok", "rebuild": r"copied \d+ \d+", "tend": r"tended \d+ \d+", "diffuse": r"diffused \d+", "cat": r"cut \d+", "ls": r"cut \d+",
    "tree": r"cut \d+", "lostfiles": r"cut \d+", "fail": "ok|already",
}


class Play:
    """What the model answers to the lines of a trace, event by event, and what it saves."""

    def __init__(self, array, lines):
        self.array, self.lines = array, lines
        self.pieces, self.saves, self.written, self.wrote = [], {}, [frozenset(array.written())], []
        for event, line in enumerate(lines):
            reply = ["ok"] if line.split(" ")[0] in FIRST else array.do(line)
            if reply[-1].startswith("saved "):
                self.saves[event] = save_of(array, int(reply[-1].split(" ")[1]))
            self.pieces.append("".join(f"{part}\n" for part in reply).encode("latin-1"))
            self.written.append(frozenset(array.written()))
            self.wrote.append(writes_surely(line.split(" ")[0], reply[-1].split(" ")))

    def output(self, events=None):
        return b"".join(self.pieces[:events])

    def answered(self, output):
        """How many events are answered whole in a front of the output."""
        events, length = 0, 0
        while events < len(self.pieces) and length + len(self.pieces[events]) <= len(output):
            length += len(self.pieces[events])
            events += 1
        return events

    def may_be_zeros(self, block, first, last):
        """Whether a block isn't written before some event, or behind it or one of the next."""
        return any(block not in self.written[event] for event in range(first, last + 2))


def writes_surely(word, last):
    """Whether an event with this reply wrote to a member, so that no label is sealed behind it."""
    if word in ("write", "replace"):
        return last == ["ok"]
    if word in ("rebuild", "tend"):
        return last[0] in ("copied", "tended") and int(last[1]) > 0
    return word in FIRST or last[0] == "regrouped"


def answer_to(array, words):
    """The output and the status of a command that reads an opened array."""
    if words[0] == "status":
        return Round.status_of(None, array), 0
    reply = copy.copy(array).do(" ".join(words))
    is_whole = reply[-1].startswith("end ")
    if is_whole and words[0] == "cat":
        return bytes.fromhex("".join(line[6:] for line in reply[:-1])), 0
    return "".join(f"{line}\n" for line in reply).encode("latin-1"), 0 if is_whole else 8


# runs in which all calls fail from one on


def next_reply(word, lines, at):
    """The lines of one reply, by the event's word."""
    end = at
    while end < len(lines) and word in MORE and re.fullmatch(MORE[word], lines[end]):
        end += 1
    if end == len(lines):
        raise Difference(f"no whole reply to {word}: {lines[at:]!r}")
    return lines[at:end + 1]


def check_failed(play, event, word, reply):
    """The reply to an event that was begun when calls had failed: no byte of a block that is written, and no success."""
    if len(reply) > 1 and word != "pending" or not re.fullmatch(FAILED[word], reply[-1]):
        raise Difference(f"event {event} ({play.lines[event]:.60}), while all calls fail: {reply!r:.500}")


def check_stopping(play, event, word, reply):
    """The reply to the event in which calls begin to fail: the model's, that of a failure, or a front of the model's."""
    want = play.pieces[event].decode("latin-1").split("\n")[:-1]
    allowed = "|".join(pattern for pattern in (FAILED[word], STOPPED.get(word)) if pattern)
    if reply == want or re.fullmatch(allowed, reply[-1]) and (word == "pending" or reply[:-1] == want[:len(reply) - 1]):
        return
    raise Difference(f"event {event} ({play.lines[event]:.60}), in which calls begin to fail\nmodel:   {want!r:.1000}\nprogram: {reply!r:.1000}")


def check_tail(play, first, output):
    """The replies from the event on in which calls begin to fail."""
    see("the replies before calls fail", play.output(first), output[:len(play.output(first))])
    lines, at = output[len(play.output(first)):].decode("latin-1").split("\n"), 0
    see("the end of the output", "", lines.pop())
    for event in range(first, len(play.lines)):
        word = play.lines[event].split(" ")[0]
        reply = next_reply(word, lines, at)
        at += len(reply)
        if event == first:
            check_stopping(play, event, word, reply)
        else:
            check_failed(play, event, word, reply)
        if reply == ["data -"] and not play.may_be_zeros(int(play.lines[event].split(" ")[1]), first, event):
            see(f"event {event} ({play.lines[event]})", play.pieces[event], b"data -\n")
    see("lines behind the last reply", [], lines[at:])


def check_failed_status(array, output):
    """What `status` may say of an array while calls fail: fewer members are good, and so it is worn, or it is as it is."""
    want, got = (text.decode().split("\n") for text in (Round.status_of(None, array), output))
    see("the array", want[0], got[0])
    see("lines", len(want), len(got))
    for one, other in zip(want[2:-1], got[2:-1]):
        words, said = one.split(" "), other.split(" ")
        well = words[:2] == said[:2] and words[-1] == said[-1] and (said == words or said[2] == "lost" or words[2] == "both" and said[2] == "half")
        if not well:
            raise Difference(f"while calls fail: {other}, of {one}")


def check_failed_answer(array, words, output, status):
    """What `cat`, `ls` and `status` may answer while calls fail, beside a refusal."""
    want = answer_to(array, words)
    if (output, status) == want:
        return
    if words[0] == "status" and status == 0:
        return check_failed_status(array, output)
    is_front = want[0].startswith(output) and words[0] == "cat"
    is_refusal = re.fullmatch(rb"(unavailable|bad magic|bad entry|notfound)\n", output) or words[0] == "ls" and b"cut " in output
    if status != 8 or not (is_front or is_refusal):
        raise Difference(f"{words} while calls fail\nmodel:   {want!r:.1000}\nprogram: {(output, status)!r:.1000}")
