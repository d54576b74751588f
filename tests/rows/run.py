"""Runs rows through the program and compares each line of its output and of standard error, its status and what it leaves of its members.

    run.py PROGRAM [FILE..]          the rows of these files, or of all files *.rows beside this script
    run.py --cases FOLDER [FILE..]   writes the rows of one replay, for `rt try --cases FOLDER -- replay`

Prints each difference with the row's name, and at last `N rows, M differ`; the status is 1 where a row differs. README.md in this
folder says how a row is written.

Standard error: a command writes nothing there but the lines that its row names, in their order, by lines like

    ! member-0[01]-1.img: write: File too large ; 2 images, none with a label

which stand behind what the command is to print. Lines have ` ; ` between them; `[01]` is each of these characters in turn, so that the first
part is the line of member-00-1.img and then that of member-01-1.img. What is told, and when, is in DIAGNOSTICS of docs/dgraid.1.
"""
import argparse
import glob
import os
import resource
import select
import signal
import subprocess
import sys
import tempfile

sys.dont_write_bytecode = True

from members import Folder
from script import Mistake, Run, read_rows, steps_of

HERE = os.path.dirname(os.path.abspath(__file__))
SECONDS = 60
SHOWN = 160


def shown(data):
    """Some bytes as a text of one line."""
    text = repr(data[:SHOWN].decode("utf-8", "backslashreplace"))
    return text + (f" and {len(data) - SHOWN} bytes more" if len(data) > SHOWN else "")


def difference(run, output, told, status):
    """The first part of a command's output that isn't as it is wanted, or its status or standard error; None where all is."""
    at = 0
    for part in run.parts:
        got = output[at:at + len(part.wanted)]
        if got != part.wanted:
            return part.number, f"{part.what}: wanted {shown(part.wanted)}, got {shown(output[at:at + len(part.wanted) + SHOWN])}"
        at += len(part.wanted)
    if at < len(output):
        return run.parts[-1].number, f"{run.parts[-1].what}: more output: {shown(output[at:])}"
    if status != run.status:
        return run.number, f"{run.what}: wanted status {run.status}, got {status}"
    wanted = "".join(line + "\n" for line in run.told).encode()
    if told != wanted:
        return run.number, f"{run.what}: standard error: wanted {shown(wanted)}, got {shown(told)}"
    return None


def do_stages(program, run, folder):
    """Runs a command stage by stage: its files get another limit once all replies that are wanted before it are there."""
    process = subprocess.Popen(
        [program, *run.words], stdin=subprocess.PIPE, stdout=subprocess.PIPE, stderr=subprocess.PIPE, cwd=folder,
        preexec_fn=lambda: [signal.signal(number, signal.SIG_IGN) for number in run.ignored])
    try:
        output = feed(process, run)
        rest, told = process.communicate(timeout=SECONDS)
    finally:
        process.kill()
        process.wait()
    return output + rest, told, process.returncode


def feed(process, run):
    """Gives a command its input, and takes the output that is wanted before the last limit."""
    output, wanted = b"", 0
    for limit, parts in run.stages():
        if limit is not None:
            resource.prlimit(process.pid, resource.RLIMIT_FSIZE, (limit, resource.RLIM_INFINITY))
        process.stdin.write(b"".join(part.input for part in parts))
        process.stdin.flush()
        wanted += sum(len(part.wanted) for part in parts)
        while len(output) < wanted and select.select([process.stdout], [], [], SECONDS)[0]:
            piece = os.read(process.stdout.fileno(), 1 << 16)
            if not piece:
                break
            output += piece
    return output


def do_run(program, run, folder):
    try:
        if run.limits:
            return difference(run, *do_stages(program, run, folder))
        done = subprocess.run([program, *run.words], input=run.input(), capture_output=True, cwd=folder, timeout=SECONDS)
    except subprocess.TimeoutExpired:
        return run.number, f"{run.what}: no end in {SECONDS} seconds"
    except BrokenPipeError:
        return run.number, f"{run.what}: an end before that of its input"
    return difference(run, done.stdout, done.stderr, done.returncode)


def do_row(program, row):
    """The first difference of a row: its line and a text; None where there is none."""
    reader = steps_of(row)
    with tempfile.TemporaryDirectory() as path:
        folder = Folder(path, reader.image)
        for step in reader.steps:
            if isinstance(step, Run):
                found = do_run(program, step, path)
            else:
                text = folder.do(step.words)
                found = (step.number, f"members {' '.join(step.words)}: {text}") if text else None
            if found:
                return found
    return None


def write_cases(folder, rows):
    """The rows that are one replay, each as a file of its input and one of its output."""
    count = 0
    for number, (_, row) in enumerate(rows):
        steps = steps_of(row).steps
        if len(steps) == 1 and isinstance(steps[0], Run) and steps[0].words == [b"replay"] and not steps[0].limits:
            output = b"".join(part.wanted for part in steps[0].parts)
            for name, data in ((f"r{number:03}", steps[0].input()), (f"r{number:03}.stdout", output)):
                with open(os.path.join(folder, name), "wb") as file:
                    file.write(data)
            count += 1
    print(f"{count} of {len(rows)} rows written")


def words():
    parser = argparse.ArgumentParser()
    parser.add_argument("--cases")
    parser.add_argument("files", nargs="*")
    args = parser.parse_args()
    if args.cases is None:
        if not args.files:
            parser.error("the program is wanted")
        args.program = os.path.abspath(args.files.pop(0))
    args.files = args.files or sorted(glob.glob(os.path.join(HERE, "*.rows")))
    return args


def main():
    args = words()
    rows = [(os.path.basename(path), row) for path in args.files for row in read_rows(path)]
    if args.cases is not None:
        write_cases(args.cases, rows)
        return 0
    differ = 0
    for file, row in rows:
        found = do_row(args.program, row)
        if found:
            differ += 1
            print(f"{file}:{found[0]}: {row.name}: {found[1]}")
    print(f"{len(rows)} rows, {differ} differ")
    return 1 if differ else 0


if __name__ == "__main__":
    try:
        sys.exit(main())
    except Mistake as mistake:
        print(mistake)
        sys.exit(2)
