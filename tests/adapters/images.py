"""What the program does with image files as people keep them: other arrays' images in the folder, images that can only be read, two runs at once,
what is on the disk when, calls that are interrupted, slow pipes, and limits. Each case runs in a new folder.

    images.py PROGRAM      prints each case with `passed`, `failed` and why, or `skipped` and what the machine lacks; the status is 1 where one failed

Some cases need `strace`, some root (to be another user, or to mount).
"""
import fcntl
import os
import re
import resource
import select
import shutil
import subprocess
import sys
import tempfile
import threading
import time

HERE = os.path.dirname(os.path.abspath(__file__))
NOBODY = 65534
SECONDS = 60
SMALL = "array 1024 64 4 32 2\n"
IMAGES = [f"member-{s:02}-{j}.img" for s in range(4) for j in range(2)]
SAFE = SMALL.replace("array", "safe")
SAVED = SMALL + "write 3 6f6c64\nsave\n"
REFUSED = "in use by another run"


class Wrong(Exception):
    """Something isn't as it is wanted."""


class Skipped(Exception):
    """The machine doesn't let the case be made."""


def want(what, wanted, got):
    if wanted != got:
        raise Wrong(f"{what}: wanted {wanted!r:.400}, got {got!r:.400}")


def lines(call, text, members=IMAGES):
    """A line on standard error for each of these members."""
    return "".join(f"{name}: {call}: {text}\n" for name in members)


class Case:
    """A folder of its own, and the program in it."""

    def __init__(self, program, base, number):
        self.program, self.base = program, base
        self.folder = os.path.join(base, f"case{number}")
        os.mkdir(self.folder)

    def path(self, name):
        return os.path.join(self.folder, name)

    def run(self, words, given="", before=(), **how):
        """A run to its end: its output, what it told, and its status."""
        done = subprocess.run([*before, self.program, *words.split()], input=given.encode(), capture_output=True, cwd=self.folder, timeout=SECONDS, **how)
        return done.stdout.decode("latin-1"), done.stderr.decode(), done.returncode

    def see(self, words, given, output, told="", status=0, **how):
        want(f"{words} of {given!r:.80}", (output, told, status), self.run(words, given, **how))

    def save(self, events=SAVED, number=1):
        output, told, status = self.run("replay", events)
        want("the array that is saved", (f"saved {number}", "", 0), (output.splitlines()[-1], told, status))

    def bytes_of(self, names=IMAGES, behind=""):
        found = {}
        for name in names:
            with open(self.path(name + behind), "rb") as file:
                found[name] = file.read()
        return found

    def start(self, words, **how):
        """A run that goes on."""
        return subprocess.Popen([self.program, *words.split()], stdin=subprocess.PIPE, stdout=subprocess.PIPE, stderr=subprocess.PIPE, cwd=self.folder, **how)

    def traced(self, calls, options, words, given):
        """A run under strace, with what strace wrote of these calls."""
        if shutil.which("strace") is None or subprocess.run(["strace", "-o", os.devnull, "true"], capture_output=True).returncode:
            raise Skipped("strace can't be run")
        trace = os.path.join(self.base, "trace")
        before = ["strace", "-qq", "-o", trace, "-e", f"trace={calls}", *options]
        ended = self.run(words, given, before)
        with open(trace) as file:
            return ended, file.read()


def ask(process, event, lines_wanted=1):
    """An event to a run that goes on, and its reply."""
    process.stdin.write(event.encode() + b"\n")
    process.stdin.flush()
    return "".join(process.stdout.readline().decode() for _ in range(lines_wanted))


# ---- a new array among older images

def a_new_array_among_older_images(case):
    case.save("array 1024 64 8 32 2\nwrite 3 6f6c64\nsave\nsave\n", 2)
    names = [f"member-{s:02}-{j}.img" for s in range(8) for j in range(2)]
    older = case.bytes_of(names)
    case.see("replay", SAVED.replace("6f6c64", "6e6577"), "ok\nok\nsaved 1\n", "16 images set aside, as member-SS-J.img.old\n")
    want("what was set aside", older, case.bytes_of(names, ".old"))
    case.see("resume", "read 3\nsave\n", "data 6e6577\nsaved 2\n")
    want("the new array", "array 1024 64 4 32 2", case.run("status")[0].splitlines()[0])
    newer = case.bytes_of()
    case.see("replay", SMALL, "ok\n", "8 images set aside, as member-SS-J.img.old\n")
    want("what was set aside in place of the older ones", {**older, **newer}, case.bytes_of(names, ".old"))
    for name in IMAGES[1:]:
        os.remove(case.path(name))
    case.see("replay", SMALL, "ok\n", "1 image set aside, as member-SS-J.img.old\n")


def a_drill_among_older_images(case):
    case.save()
    older = case.bytes_of()
    told, status = case.run("drill 1 1")[1:]
    want("a drill", ("8 images set aside, as member-SS-J.img.old\n", 0), (told, status))
    want("what was set aside", older, case.bytes_of(behind=".old"))


def a_first_line_that_is_refused(case):
    case.save()
    older = case.bytes_of()
    for text, reply in (("reed 3\n", "word"), ("write 3 00\n", "order"), ("array 1024 64 99 32 2\n", "limits"), ("array", "cut"), ("", "cut")):
        case.see("replay", text, f"line 1 {reply}\n", status=2)
    want("the images", older, case.bytes_of())
    want("files", sorted(IMAGES), sorted(os.listdir(case.folder)))


def images_that_cant_be_set_aside(case):
    case.save()
    older = case.bytes_of()
    os.mkdir(case.path("member-01-0.img.old"))
    told = "member-01-0.img: set aside: Is a directory\n" + lines("blank", "older images are in the way")
    case.see("replay", SMALL + "write 3 00\n", "ok\ndegraded\n", told)
    want("the images", older, case.bytes_of())
    want("files", sorted([*IMAGES, "member-01-0.img.old"]), sorted(os.listdir(case.folder)))


# ---- images that can only be read

def see_readable(case, denial, **how):
    """The array of an image that has a file is shown, and a resume of it reads and changes nothing."""
    older = case.bytes_of()
    case.see("cat /a", "", "nostate\n", **how)
    want("ls", "entry 2 d 512 .", case.run("ls /", **how)[0].splitlines()[0])
    want("status", ("phase loose", "", 0), (lambda out, told, status: (out.splitlines()[1], told, status))(*case.run("status", **how)))
    case.see("resume", "read 8\nwrite 8 00\nsave\n", case.run("resume", "read 8\n", **how)[0] + "degraded\nlost 0\n", lines("write", denial), **how)
    want("the images", older, case.bytes_of())


def save_a_file(case, word="array"):
    """Saves a volume with a file /a, which says nostate, in an array whose first line has this word."""
    os.mkdir(case.path("from"))
    with open(case.path("from/a"), "w") as file:
        file.write("nostate\n")
    words = [sys.executable, os.path.join(HERE, "..", "tour", "folder_image.py"), case.path("from"), case.path("image")]
    subprocess.run(words, check=True, capture_output=True)
    with open(case.path("image"), "rb") as file:
        image = file.read()
    trace = subprocess.run([case.program, *"trace late 4 1024 2".split()], input=image, capture_output=True, check=True).stdout.decode()
    case.save(trace.replace("array", word, 1) + "save\n")


def images_of_mode_444(case, word="array"):
    save_a_file(case, word)
    for name in IMAGES:
        os.chmod(case.path(name), 0o444)
    how = {"user": NOBODY, "group": NOBODY, "extra_groups": []} if os.geteuid() == 0 else {}
    try:
        see_readable(case, "Permission denied", **how)
    except PermissionError as error:
        raise Skipped(f"the program can't be run as another user: {error}") from None


def safe_images_of_mode_444(case):
    images_of_mode_444(case, "safe")


def a_read_only_mount(case):
    save_a_file(case)
    if subprocess.run(["mount", "--bind", case.folder, case.folder], capture_output=True).returncode:
        raise Skipped("nothing may be mounted here")
    try:
        if subprocess.run(["mount", "-o", "remount,bind,ro", case.folder], capture_output=True).returncode:
            raise Skipped("nothing may be mounted to be read only here")
        see_readable(case, "Read-only file system")
    finally:
        subprocess.run(["umount", case.folder], capture_output=True)


# ---- two runs at once

def two_runs_at_once(case):
    case.save()
    older = case.bytes_of()
    first = case.start("resume")
    want("the first run", "data 6f6c64\n", ask(first, "read 3"))
    refused = lines("attach", REFUSED) + "8 images couldn't be opened\n"
    for words in ("resume", "status", "cat /a", "ls /"):
        case.see(words, "write 3 00\nsave\n" if words == "resume" else "", "nostate\n", refused, 6)
    told = f"member-00-0.img: set aside: {REFUSED}\n" + lines("blank", "older images are in the way")
    case.see("replay", SMALL, "ok\n", told)
    want("the images", older, case.bytes_of())
    want("files", sorted(IMAGES), sorted(os.listdir(case.folder)))
    want("the first run's write", "ok\n", ask(first, "write 3 6e6577"))
    want("the first run's save", "saved 2\n", ask(first, "save"))
    want("the first run's end", (b"", b""), first.communicate(timeout=SECONDS))
    case.see("resume", "read 3\n", "data 6e6577\n")


def a_folder_in_use(case):
    """A run that has the folder keeps others from each image, also from those that it hasn't opened yet, and from making any."""
    case.save()
    found = case.run("status")[0]
    folder = os.open(case.folder, os.O_RDONLY)
    fcntl.flock(folder, fcntl.LOCK_EX)
    refused = lines("attach", REFUSED) + "8 images couldn't be opened\n"
    for words in ("resume", "status"):
        case.see(words, "write 3 00\nsave\n" if words == "resume" else "", "nostate\n", refused, 6)
    fcntl.flock(folder, fcntl.LOCK_SH)
    case.see("status", "", found)
    case.see("resume", "read 3\n", "nostate\n", refused, 6)
    for name in IMAGES:
        os.unlink(case.path(name))
    case.see("replay", SMALL, "ok\n", lines("blank", REFUSED))
    want("files", [], os.listdir(case.folder))
    os.close(folder)


def a_new_array_that_is_in_use(case):
    first = case.start("replay")
    want("the first run", "ok\n", ask(first, SMALL.strip()))
    told = f"member-00-0.img: set aside: {REFUSED}\n" + lines("blank", "older images are in the way")
    case.see("replay", SMALL, "ok\n", told)
    want("the first run's save", "ok\nsaved 1\n", ask(first, "write 3 6f6c64\nsave", 2))
    first.communicate(timeout=SECONDS)
    case.see("resume", "read 3\n", "data 6f6c64\n")


def two_runs_that_read(case):
    """The first one waits for its reader, and the second one reads the same images."""
    os.mkdir(case.path("from"))
    with open(case.path("from/a"), "w") as file:
        file.write("a line of some length\n" * 10000)
    subprocess.run([sys.executable, os.path.join(HERE, "..", "tour", "folder_image.py"), case.path("from"), case.path("image")], check=True, capture_output=True)
    with open(case.path("image"), "rb") as file:
        trace = subprocess.run([case.program, *"trace late 4 1024 2".split()], stdin=file, capture_output=True, check=True).stdout.decode()
    case.save(trace + "save\n")
    first = case.start("cat /a")
    want("the first run", b"a line", os.read(first.stdout.fileno(), 6))
    want("the second run", ("", 0), case.run("status")[1:])
    want("a run that writes", ("nostate\n", 6), case.run("resume")[::2])
    want("the rest of the first run", 220000 - 6, len(first.communicate(timeout=SECONDS)[0]))
    want("a run that writes, later", ("", "", 0), case.run("resume"))


# ---- what is on the disk when

CALL = re.compile(r"(pwrite64|fdatasync|fsync|ftruncate)\((\d+)(.*)\) += ")


def calls_in(trace):
    """Of each file: the calls on it, a write by where it begins."""
    found = {}
    for name, file, rest in CALL.findall(trace):
        found.setdefault(int(file), []).append(int(rest.split(", ")[-1]) if name == "pwrite64" else name)
    return found


def the_order_of_a_save(case):
    body = 512 + 33 * 1024
    (output, told, status), trace = case.traced("pwrite64,fdatasync,fsync", [], "replay", SAVED + "write 3 00\nsave\n")
    want("the run", ("ok\nok\nsaved 1\nok\nsaved 2\n", "", 0), (output, told, status))
    plain = [body, "fdatasync", 0, "fdatasync", 0, "fdatasync", body, "fdatasync", 0, "fdatasync"]
    # the block's first place is slot 0, which is no header
    written = [512, *plain[:6], 512, *plain[6:]]
    found = calls_in(trace)
    names = [calls for calls in found.values() if calls == ["fsync"]]
    images = [calls for calls in found.values() if calls != ["fsync"]]
    want("the calls on the folder", [["fsync"]], names)
    want("the calls on the images", sorted([plain] * 6 + [written] * 2, key=str), sorted(images, key=str))


def an_opened_seal(case):
    case.save()
    ended, trace = case.traced("pwrite64,fdatasync,fsync", [], "resume", "write 3 00\nwrite 7 01\nread 3\n")
    want("the run", ("ok\nok\ndata -\n", "", 0), ended)
    # the last one is that of closing
    want("the calls on an image", [0, "fdatasync", 512, 1536, "fdatasync"], max(calls_in(trace).values(), key=len))
    ended, trace = case.traced("fdatasync,fsync,sync", [], "resume", "")
    want("an unclean array", ("unclean\n", 7, ""), (ended[0], ended[2], trace))


def the_order_of_a_safe_save(case):
    """Each header of each member is flushed alone, when all before it is on the disk: also the first ones, at byte 512. All are prepared before one is made."""
    (output, told, status), trace = case.traced("pwrite64,fdatasync,fsync", ["-s", "17"], "replay", SAFE + "write 3 6f6c64\nsave\nwrite 3 00\nsave\nwrite 3 01\n")
    want("the run", ("ok\nok\nsaved 1\nok\nsaved 2\nok\n", "", 0), (output, told, status))
    found = calls_in(trace)
    names = [calls for calls in found.values() if calls == ["fsync"]]
    images = [calls for calls in found.values() if calls != ["fsync"]]
    want("the calls on the folder", [["fsync"]], names)
    want("the number of images", 8, len(images))
    first, second = (["fdatasync", place, "fdatasync", place, "fdatasync"] for place in (512, 0))
    for calls in images:
        # what else is written stands behind the headers; at the end, in the tables and pages
        only = [call for call in calls if call in (0, 512, "fdatasync")]
        closing = ["fdatasync"]
        want("the headers and flushes of an image", [*first, *second, *closing], only)
        behind = [call for call in calls if call not in (0, 512, "fdatasync")]
        want("whether all else stands behind the headers", True, behind != [] and min(behind) >= 1024)
        want("the call before the flushes", [True] * 2, [calls[calls.index(place) - 2] not in (0, 512, "fdatasync") for place in (512, 0)])
    marks = re.findall(r'pwrite64\(\d+, "DGRAID-S[^"]*([PC])"\.\.\., 512, (0|512)\)', trace)
    want("the order of the marks", [("P", "512")] * 8 + [("C", "512")] * 8 + [("P", "0")] * 8 + [("C", "0")] * 8, marks)


def a_safe_array_that_is_opened_and_read(case):
    """Its headers aren't written again, and nothing is flushed."""
    case.save(SAFE + "write 3 6f6c64\nsave\n")
    for words, given in (("status", ""), ("resume", "read 3\n")):
        ended, trace = case.traced("pwrite64,fdatasync,fsync", [], words, given)
        want("the calls of a run that reads", "", trace)
    ended, trace = case.traced("pwrite64,fdatasync,fsync", [], "resume", "write 3 00\nwrite 7 01\nread 3\n")
    want("the run", ("ok\nok\ndata -\n", "", 0), ended)
    want("the flushes of a run that doesn't save", [], re.findall("fdatasync|fsync", trace))


def halved(case):
    """A saved array whose second save was stopped when one member alone had its header committed."""
    case.save(SAFE + "write 3 6f6c64\nsave\nwrite 3 6e6577\nsave\n", 2)
    for name in IMAGES[:-1]:
        with open(case.path(name), "r+b") as file:
            file.seek(16)
            file.write(b"P")


def safe_arrays_in_use(case):
    """Two runs that write don't get the same members; what the first one saved stands while it goes on."""
    case.save(SAFE + "write 3 6f6c64\nsave\n")
    first = case.start("resume")
    want("a write", "ok\n", ask(first, "write 3 6e6577"))
    case.see("resume", "read 3\n", "nostate\n", lines("attach", REFUSED) + "8 images couldn't be opened\n", 6)
    want("a save", "saved 2\n", ask(first, "save"))
    want("a write behind it", "ok\n", ask(first, "write 3 00"))
    first.kill()
    first.communicate()
    case.see("resume", "read 3\n", "data 6e6577\n")


def a_safe_array_that_can_only_be_read(case):
    """Commands that read open it, and leave each image as it was; also where a save was stopped halfway."""
    halved(case)
    before = case.bytes_of()
    case.see("status", "", "array 1024 64 4 32 2\nphase loose\nboundary 0 both 0\nboundary 1 both 0\nboundary 2 both 0\nboundary 3 both 1\n")
    case.see("ls /", "", "bad magic\n", "", 8)
    want("the images", before, case.bytes_of())
    case.see("resume", "read 3\n", "data 6e6577\n")
    want("the images that another run has completed", True, before != case.bytes_of())
    case.see("status", "", "array 1024 64 4 32 2\nphase loose\nboundary 0 both 0\nboundary 1 both 0\nboundary 2 both 0\nboundary 3 both 1\n")


def a_slot_that_begins_as_a_header(case):
    """A plain array's slot 0 stands where another one has a header. It is flushed where its bytes begin as one, and only then."""
    case.save()
    _, trace = case.traced("pwrite64,fdatasync", [], "resume", "write 3 00\n" + "write 3 4447524149442d53\n" + "write 3 01\n" * 3)
    calls = max(calls_in(trace).values(), key=len)
    want("the calls on an image", [0, "fdatasync", 512, "fdatasync", 512, "fdatasync", 512, 512, 512, "fdatasync"], calls)


def no_flush_without_a_save(case):
    events = SMALL + "".join(f"write {b} 0{b % 10}\n" for b in range(64)) + "fail 0 0\nreplace 0 0\nrebuild 0 99\n"
    ended, trace = case.traced("fdatasync,fsync,sync,syncfs", [], "replay", events)
    want("the run's end and its flushes", (0, ""), (ended[2], trace))


def a_flush_that_fails(case):
    case.save()
    path = ["-P", case.path("member-03-0.img")]
    options = [*path, "-e", "inject=fdatasync:error=EIO"]
    told = lines("write", "Input/output error", ["member-03-0.img"])
    ended, _ = case.traced("fdatasync", options, "resume", "write 3 00\nsave\n")
    want("the run", ("ok\nsaved 2\n", told, 0), ended)
    want("the boundary", "boundary 3 half 1 1", case.run("status")[0].splitlines()[-1])


def an_error_of_closing(case):
    """The second flush of an image is that of closing: what was written behind its label is flushed then, and a failure is told."""
    case.save()
    name = "member-03-0.img"
    told = lines("close", "Input/output error", [name])
    options = ["-P", case.path(name), "-e", "inject=fdatasync:error=EIO:when=2"]
    ended, _ = case.traced("fdatasync", options, "resume", "write 3 00\nwrite 7 01\nread 7\n")
    want("the run", ("ok\nok\ndata 01\n", told, 0), ended)
    case.see("status", "", "unclean\n", status=7)


def an_error_of_closing_a_replaced_member(case):
    """The fourth flush is that of the image that is replaced, the fifth that of the new one at the end."""
    name = "member-03-0.img"
    events = SMALL + "write 3 6f6c64\nwrite 7 01\nsave\nwrite 7 02\nfail 3 0\nreplace 3 0\nrebuild 3 99\nread 7\n"
    options = ["-P", case.path(name), "-e", "inject=fdatasync:error=EIO:when=4+"]
    ended, _ = case.traced("fdatasync", options, "replay", events)
    want("the run", ("ok\nok\nok\nsaved 1\nok\nok\nok\ncopied 2 0\ndata 02\n", lines("close", "Input/output error", [name] * 2), 0), ended)


# ---- calls that are interrupted, and streams that don't block

def interrupted_streams(case):
    events = SMALL + "write 3 6869\n" + "read 3\n" * 5000
    wanted = "ok\nok\n" + "data 6869\n" * 5000
    for name, call in (("input", "read"), ("output", "write")):
        with open(case.path("input"), "w") as file:
            file.write(events)
        flags = ["-P", case.path(name), "-e", f"inject={call}:error=EINTR:when=1+2"]
        words = f"exec {case.program} replay <input >output"
        trace = os.path.join(case.base, "trace")
        if shutil.which("strace") is None:
            raise Skipped("strace can't be run")
        done = subprocess.run(["strace", "-qq", "-f", "-o", trace, "-e", f"trace={call}", *flags, "sh", "-c", words], cwd=case.folder, capture_output=True, timeout=SECONDS)
        with open(case.path("output")) as file:
            want(f"the output, {name} interrupted", (wanted, 0), (file.read(), done.returncode))
        with open(trace) as file:
            want(f"whether {name} was interrupted", True, "EINTR" in file.read())
        for image in IMAGES:
            os.remove(case.path(image))
            if os.path.exists(case.path(image + ".old")):
                os.remove(case.path(image + ".old"))


def no_blocking(file):
    fcntl.fcntl(file, fcntl.F_SETFL, fcntl.fcntl(file, fcntl.F_GETFL) | os.O_NONBLOCK)


def a_slow_reader(case):
    block = "ab" * 1000
    events = SMALL + f"write 3 {block}\n" + "read 3\n" * 200
    wanted = "ok\nok\n" + f"data {block}\n" * 200
    reading, writing = os.pipe()
    no_blocking(writing)
    with open(case.path("input"), "w") as file:
        file.write(events)
    with open(case.path("input")) as given:
        process = subprocess.Popen([case.program, "replay"], stdin=given, stdout=writing, stderr=subprocess.PIPE, cwd=case.folder)
    os.close(writing)
    time.sleep(0.5)
    found = b""
    while piece := os.read(reading, 8000):
        found += piece
        time.sleep(0.02)
    os.close(reading)
    told = process.stderr.read()
    _, status, usage = os.wait4(process.pid, 0)
    want("the output", (wanted, b"", 0), (found.decode(), told, status))
    want("that it waits without spinning", True, usage.ru_utime + usage.ru_stime < 0.5)


def a_slow_writer(case):
    reading, writing = os.pipe()
    no_blocking(reading)
    process = subprocess.Popen([case.program, "replay"], stdin=reading, stdout=subprocess.PIPE, stderr=subprocess.PIPE, cwd=case.folder)
    os.close(reading)
    for line in (SMALL, "write 3 6869\n", "re", "ad 3\n"):
        time.sleep(0.3)
        os.write(writing, line.encode())
    time.sleep(0.3)
    os.close(writing)
    output, told = process.stdout.read(), process.stderr.read()
    _, status, usage = os.wait4(process.pid, 0)
    want("the output", (b"ok\nok\ndata 6869\n", b"", 0), (output, told, status))
    want("that it waits without spinning", True, usage.ru_utime + usage.ru_stime < 0.5)


# ---- limits on the length of files, and images that are made anew

def a_limit(length):
    return {"preexec_fn": lambda: resource.setrlimit(resource.RLIMIT_FSIZE, (length, resource.RLIM_INFINITY)), "restore_signals": True}


def a_limit_on_the_length_of_files(case):
    case.see("replay", SMALL + "write 3 00\n", "ok\ndegraded\n", lines("blank", "File too large"), **a_limit(20000))
    case.save()
    output, told, status = case.run("resume", "write 3 00\nread 3\nsave\n", **a_limit(20000))
    want("a resume", ("ok\ndata -\nlost 0\n", lines("write", "File too large"), 0), (output, told, status))


def a_blank_that_fails(case):
    case.save()
    for name in IMAGES:
        shutil.copy(case.path(name), case.path(name) + ".kept")
    older = case.bytes_of(["member-03-1.img"])
    options = ["-P", case.path("member-03-1.img"), "-e", "inject=ftruncate:error=ENOSPC:when=1"]
    ended, _ = case.traced("ftruncate", options, "resume", "fail 3 1\nreplace 3 1\nread 3\n")
    want("the run", ("ok\nfailed\ndata 6f6c64\n", lines("blank", "No space left on device", ["member-03-1.img"]), 0), ended)
    want("the image", older, case.bytes_of(["member-03-1.img"]))


def a_replaced_member_that_fails_again(case):
    case.save()
    options = ["-P", case.path("member-03-1.img"), "-e", "inject=pwrite64:error=EIO"]
    told = lines("write", "Input/output error", ["member-03-1.img"] * 2)
    ended, _ = case.traced("pwrite64", options, "resume", "write 3 00\nreplace 3 1\nrebuild 3 99\nread 3\n")
    want("the run", ("ok\nok\nfailed\ndata -\n", told, 0), ended)


# ---- what is told where there is no saved array

def why_there_is_no_array(case):
    for words in ("status", "resume", "cat /a", "ls /"):
        case.see(words, "", "nostate\n", "no image in this folder\n", 6)
    case.see("replay", SMALL, "ok\n")
    for words in ("status", "resume", "cat /a", "ls /"):
        case.see(words, "", "nostate\n", "8 images, none with a label\n", 6)
    for name in IMAGES[:5]:
        os.remove(case.path(name))
    for name in IMAGES[5:]:
        os.remove(case.path(name))
        os.mkdir(case.path(name))
    case.see("status", "", "nostate\n", lines("attach", "Is a directory", IMAGES[5:]) + "3 images couldn't be opened\n", 6)
    for name in IMAGES[5:]:
        os.rmdir(case.path(name))
    case.save()
    shutil.copy(case.path(IMAGES[0]), case.path("kept"))
    for name in IMAGES:
        os.remove(case.path(name))
    os.rename(case.path("kept"), case.path(IMAGES[1]))
    case.see("status", "", "nostate\n", "1 image, none with a label of its own\n", 6)
    os.mkdir(case.path(IMAGES[2]))
    told = lines("attach", "Is a directory", [IMAGES[2]]) + "1 image, none with a label of its own; 1 couldn't be opened\n"
    case.see("status", "", "nostate\n", told, 6)


def bodies_that_say_no_state(case):
    case.save()
    for name in IMAGES:
        with open(case.path(name), "r+b") as file:
            file.seek(512 + 33 * 1024)
            file.write(b"\xff" * 40)
    for words in ("status", "cat /a"):
        case.see(words, "", "nostate\n", "8 images, none with a whole state behind its label\n", 6)


def safe_bodies_that_say_no_state(case):
    """A plain member would have 35,817 bytes, so tables have a page, and pages begin at 2048; the body begins in page 67, of which both places are changed."""
    case.save(SAFE + "write 3 6f6c64\nsave\n")
    for name in IMAGES:
        with open(case.path(name), "r+b") as file:
            file.seek(2048 + 67 * 1024)
            file.write(b"\xff" * 1024)
    for words in ("status", "cat /a"):
        case.see(words, "", "nostate\n", "8 images, none with a whole state behind its label\n", 6)


def a_file_that_says_nostate(case):
    save_a_file(case)
    case.see("cat /a", "", "nostate\n")


def a_file_of_a_safe_array_that_says_nostate(case):
    save_a_file(case, "safe")
    case.see("cat /a", "", "nostate\n")


# ---- links

def links_are_followed(case):
    os.mkdir(case.path("disk"))
    os.symlink("disk/one", case.path(IMAGES[6]))
    case.save()
    want("whether the link is one still", True, os.path.islink(case.path(IMAGES[6])))
    with open(case.path("disk/one"), "rb") as file:
        want("the label", b"DGRAID-2", file.read(8))
    case.see("resume", "fail 3 0\nreplace 3 0\nrebuild 3 99\nsave\nread 3\n", "ok\nok\ncopied 1 0\nsaved 2\ndata 6f6c64\n")
    want("whether the link is one still", True, os.path.islink(case.path(IMAGES[6])))
    case.see("replay", SMALL, "ok\n", "8 images set aside, as member-SS-J.img.old\n")
    want("what the link became", "disk/one", os.readlink(case.path(IMAGES[6] + ".old")))


def hard_linked_sides(case):
    """Two names of one file are one disk: the one that its label names, and no blank cuts the other off."""
    case.save()
    os.remove(case.path(IMAGES[6]))
    os.link(case.path(IMAGES[7]), case.path(IMAGES[6]))
    want("the boundary", "boundary 3 half 1 1", case.run("status")[0].splitlines()[-1])
    told = lines("blank", "the file of another member", [IMAGES[6]])
    case.see("resume", "read 3\nreplace 3 0\nread 3\n", "data 6f6c64\nfailed\ndata 6f6c64\n", told)


CASES = [
    a_new_array_among_older_images, a_drill_among_older_images, a_first_line_that_is_refused, images_that_cant_be_set_aside, images_of_mode_444, safe_images_of_mode_444, a_read_only_mount, two_runs_at_once, a_folder_in_use,
    a_new_array_that_is_in_use, two_runs_that_read, the_order_of_a_save, the_order_of_a_safe_save,
    a_safe_array_that_is_opened_and_read, a_slot_that_begins_as_a_header, safe_arrays_in_use, a_safe_array_that_can_only_be_read, an_opened_seal, no_flush_without_a_save, a_flush_that_fails, an_error_of_closing,
    an_error_of_closing_a_replaced_member, interrupted_streams, a_slow_reader, a_slow_writer, a_limit_on_the_length_of_files, a_blank_that_fails, a_replaced_member_that_fails_again,
    why_there_is_no_array, bodies_that_say_no_state, safe_bodies_that_say_no_state, a_file_that_says_nostate, a_file_of_a_safe_array_that_says_nostate,
    links_are_followed, hard_linked_sides,
]


def main():
    if len(sys.argv) != 2:
        sys.exit(__doc__)
    counts = {"passed": 0, "failed": 0, "skipped": 0}
    with tempfile.TemporaryDirectory() as base:
        os.chmod(base, 0o755)
        program = os.path.join(base, "dgraid")
        shutil.copy(sys.argv[1], program)
        for number, case in enumerate(CASES):
            name, how, why = case.__name__.replace("_", " "), "passed", ""
            try:
                case(Case(program, base, number))
            except Wrong as wrong:
                how, why = "failed", f": {wrong}"
            except subprocess.TimeoutExpired as late:
                how, why = "failed", f": {late}"
            except Skipped as skipped:
                how, why = "skipped", f": {skipped}"
            counts[how] += 1
            print(f"{how}: {name}{why}", flush=True)
    print(", ".join(f"{count} {how}" for how, count in counts.items()))
    return 1 if counts["failed"] else 0


if __name__ == "__main__":
    sys.exit(main())
