"""Replays random traces with the program and with the model, and compares each line of the replies.

    soak.py PROGRAM [--events N] [--seed S] [--length M] [--minutes T]
    soak.py --cases FOLDER ...       writes the traces and the model's replies, for `rt try --cases FOLDER -- replay`
    soak.py PROGRAM --trace FILE     replays one trace, and makes it shorter as long as a reply differs

At the first difference the trace is made shorter and printed with both replies; the status is 1. A trace is decided by its
seed and the length; that of every fourth seed begins with `safe`.
"""
import argparse
import collections
import os
import subprocess
import sys
import tempfile
import time

from generate import make, read_case

SECONDS = 120


def trace_text(case):
    return "".join(line + "\n" for line in case.lines) + case.tail


def reply_text(case):
    return "".join(line + "\n" for reply in case.replies for line in reply)


def run(program, case):
    """The program's output and its status; the status is a text where it hangs."""
    with tempfile.TemporaryDirectory() as folder:
        trace = trace_text(case).encode("latin-1")
        try:
            done = subprocess.run([program, "replay"], input=trace, capture_output=True, cwd=folder, timeout=SECONDS)
        except subprocess.TimeoutExpired:
            return "", f"no end in {SECONDS} seconds"
    return done.stdout.decode("latin-1"), done.returncode


def difference(program, case):
    """The first event whose reply differs, with the model's reply and the program's; None where none does."""
    output, status = run(program, case)
    got = output.split("\n")[:-1]
    want_status = 2 if case.tail or not case.lines else 0
    if output == reply_text(case) and status == want_status:
        return None
    at = 0
    for number, reply in enumerate(case.replies):
        if got[at:at + len(reply)] != reply:
            return number, reply, got[at:at + len(reply) + 1], status
        at += len(reply)
    return case.events(), [f"(the end, status {want_status})"], got[at:at + 2], status


def shorter(program, case):
    """A shorter trace with a difference: events are left out, many at a time and then one at a time."""
    number = difference(program, case)[0]
    if number < len(case.lines):
        case.tail = ""
        case = case.without(number + 1, len(case.lines))
    step = max(1, len(case.lines) // 2)
    while step:
        at = 1
        while at < len(case.lines):
            fewer = case.without(at, at + step)
            if difference(program, fewer):
                case = fewer
            else:
                at += step
        step //= 2
    return case


def tell(program, case):
    """Prints the shortened trace with what differs."""
    case = shorter(program, case)
    number, want, got, status = difference(program, case)
    print(trace_text(case))
    print(f"event {number}, status {status}\nmodel:   {want}\nprogram: {got}")
    sys.exit(1)


def answer_of(line, reply):
    """What kind of answer a reply is: its event and its last line without numbers, bytes and names."""
    words = [word for word in reply[-1].split(" ")[:3] if not word.isdigit()]
    if words[0] == "data":
        words = ["data"]
    return " ".join([line.split(" ")[0], *words])


def write_case(folder, seed, case):
    for name, text in ((f"t{seed}", trace_text(case)), (f"t{seed}.stdout", reply_text(case))):
        with open(os.path.join(folder, name), "w", encoding="latin-1") as out:
            out.write(text)


def words():
    parser = argparse.ArgumentParser()
    parser.add_argument("program", nargs="?")
    parser.add_argument("--cases")
    parser.add_argument("--trace")
    parser.add_argument("--events", type=int, default=100_000)
    parser.add_argument("--seed", type=int, default=1)
    parser.add_argument("--length", type=int, default=400)
    parser.add_argument("--minutes", type=float, default=1e9)
    return parser.parse_args()


def main():
    args = words()
    program = args.program and os.path.abspath(args.program)
    if args.trace:
        with open(args.trace, encoding="latin-1", newline="\n") as trace:
            case = read_case(trace.read())
        if difference(program, case):
            tell(program, case)
        return
    counts, answers, start, seed, done = collections.Counter(), collections.Counter(), time.monotonic(), args.seed, 0
    while done < args.events and time.monotonic() - start < 60 * args.minutes:
        case = make(seed, args.length, "array" if seed % 4 else "safe")
        if args.cases:
            write_case(args.cases, seed, case)
        elif difference(program, case):
            print(f"seed {seed} length {args.length}")
            tell(program, case)
        counts.update(line.split(" ")[0] for line in case.lines)
        answers.update(map(answer_of, case.lines, case.replies))
        answers.update(["line " + case.replies[-1][0].split(" ")[2]] if case.tail else [])
        done += case.events()
        seed += 1
        if done // 10_000 > (done - case.events()) // 10_000:
            print(f"{done} events, seed {seed}", file=sys.stderr, flush=True)
    verdict = "written" if args.cases else "no difference"
    told = ", ".join(f"{count} {word}" for word, count in counts.most_common())
    print(f"{done} events in {seed - args.seed} traces, seeds {args.seed} to {seed - 1}, {verdict}: {told}")
    print("answers: " + ", ".join(f"{answer} {count}" for answer, count in sorted(answers.items())))


if __name__ == "__main__":
    main()
