"""Runs the commands of docs/TOUR.md in a folder of their own, and compares what each prints with the page.

A block of the page that begins with ```console has lines `$ COMMAND`, which may go on in lines `> REST`, each with its output
below it. Where the first line names programs behind `console`, the block is skipped if one of them isn't there; `ptrace` stands for
the right to trace a process. `dgraid` is the built program, and `tools` leads to the repository.
"""
import os
import shutil
import subprocess
import sys
import tempfile

HERE = os.path.dirname(os.path.abspath(__file__))
sys.path.insert(0, os.path.join(HERE, "..", "histories"))
import stops  # noqa: E402

TOP = os.path.join(HERE, "..", "..")
PAGE = os.path.join(TOP, "docs", "TOUR.md")
PROGRAM = os.path.join(TOP, "crates", "dgraid", "out", "dgraid")
FENCE = "```"


def parts_of(lines):
    """The page in parts: the lines of a text, or a command with the programs that it needs and its output."""
    text, needs = [], None
    command, output = None, []
    for line in lines:
        if needs is None:
            text.append(line)
            if line.startswith(FENCE + "console"):
                yield text, None, [], []
                text, needs = [], line.split()[1:]
        elif line == FENCE or line.startswith("$ "):
            if command is not None:
                yield [], command, needs, output
            command, output = line[2:] if line != FENCE else None, []
            if line == FENCE:
                text, needs = [line], None
        elif line.startswith("> ") and not output:
            command += "\n" + line[2:]
        else:
            output.append(line)
    yield text, None, [], []


def is_there(need, path):
    return stops.may_trace() if need == "ptrace" else shutil.which(need, path=path) is not None


def prints(command, folder, path):
    environment = {**os.environ, "PATH": path, "LC_ALL": "C"}
    done = subprocess.run(["bash", "-c", command], cwd=folder, env=environment, stdout=subprocess.PIPE, stderr=subprocess.STDOUT)
    return done.stdout.decode(errors="replace").splitlines()


def tour(program, lines, folder):
    """Runs the page; the page with the real outputs, and the counts of commands that printed them, didn't, and were skipped."""
    os.mkdir(os.path.join(folder, "bin"))
    os.symlink(os.path.abspath(program), os.path.join(folder, "bin", "dgraid"))
    work = os.path.join(folder, "work")
    os.mkdir(work)
    os.symlink(os.path.abspath(TOP), os.path.join(work, "tools"))
    path = os.path.join(folder, "bin") + os.pathsep + os.environ["PATH"] + os.pathsep + "/usr/sbin"
    page, counts, missing = [], {"well": 0, "wrong": 0, "skipped": 0}, set()
    for text, command, needs, output in parts_of(lines):
        page += text
        if command is None:
            continue
        page += ["$ " + command.replace("\n", "\n> ")]
        absent = [need for need in needs if not is_there(need, path)]
        missing.update(absent)
        given = output if absent else prints(command, work, path)
        page += given
        counts["skipped" if absent else "well" if given == output else "wrong"] += 1
        if given != output:
            print(f"$ {command}")
            print("".join(f"  wanted: {line}\n" for line in output) + "".join(f"  printed: {line}\n" for line in given), end="")
    for need in sorted(missing):
        print(f"skipped: what needs {need}")
    return page, counts


def main():
    words = sys.argv[1:]
    write = words[:1] == ["--write"]
    program = (words[write:] or [PROGRAM])[0]
    if not os.access(program, os.X_OK):
        sys.exit(f"no program: {program}")
    with open(PAGE) as text:
        lines = text.read().splitlines()
    with tempfile.TemporaryDirectory() as folder:
        page, counts = tour(program, lines, folder)
    if write:
        with open(PAGE, "w") as text:
            text.write("\n".join(page) + "\n")
    print(f"{counts['well']} as printed, {counts['wrong']} not, {counts['skipped']} skipped")
    sys.exit(counts["wrong"] > 0 and not write)


if __name__ == "__main__":
    main()
