"""What the program does, and tells on standard error, where calls of the system fail or do a part, and where images are long or many.

    calls.py PROGRAM [WORDS]      all cases, or those with these words in their names

Each case is a function that is named as the case, and runs in a new folder of its own. Prints each case with `passed`, `failed` and why, or
`skipped` and what the machine lacks; at last `N passed, M failed, K skipped`. The status is 1 where a case failed.
"""
import ctypes
import fcntl
import functools
import os
import platform
import resource
import signal
import socket
import struct
import subprocess
import sys
import tempfile
import time

sys.dont_write_bytecode = True
HERE = os.path.dirname(os.path.abspath(__file__))
sys.path.insert(0, os.path.join(HERE, "..", "rows"))

from members import Folder, label_bytes, room_for_body
from volumes import volume

SECONDS = 60


class Difference(Exception):
    """Something that isn't as it is wanted."""


class Skipped(Exception):
    """A case that can't be made here, and why."""


def see(what, want, got):
    if want != got:
        raise Difference(f"{what}: wanted {want!r:.600}, got {got!r:.600}")


def image_name(boundary, side):
    return f"member-{boundary:02}-{side}.img"


def text(*lines):
    return "".join(line + "\n" for line in lines)


class Case:
    """A folder, and the program that is run in it."""

    def __init__(self, program, folder):
        self.program, self.folder = program, folder

    def path(self, *member):
        return os.path.join(self.folder, image_name(*member))

    def wants(self, words, lines, status, output, told=(), ready=None):
        """Runs a command over lines of input, and compares its status, output and standard error. `ready` is done in its process before it begins."""
        done = subprocess.run(
            [self.program, *words.split()], input=text(*lines).encode(), capture_output=True, cwd=self.folder, timeout=SECONDS, preexec_fn=ready)
        got = done.returncode, done.stdout.decode(), done.stderr.decode()
        see(words, (status, text(*output), text(*told)), got)

    def save_four(self):
        """An array of four boundaries, each of which has a block, saved."""
        lines = ["array 1024 64 4 32 2", *(f"write {block} b{block}" for block in range(4)), "save"]
        self.wants("replay", lines, 0, ["ok"] * 5 + ["saved 1"])


def open_files(count):
    """So many files may be open at once."""
    return lambda: resource.setrlimit(resource.RLIMIT_NOFILE, (count, count))


# ---- images that can't be opened

def images_that_cannot_be_attached(case):
    """A folder, a link to itself and a socket stand in the places of three images of a saved array."""
    case.save_four()
    for member in ((0, 0), (1, 1), (2, 0)):
        os.remove(case.path(*member))
    os.mkdir(case.path(0, 0))
    os.symlink(image_name(1, 1), case.path(1, 1))
    here = os.getcwd()
    os.chdir(case.folder)  # the name of a socket is short
    with socket.socket(socket.AF_UNIX) as made:
        made.bind(image_name(2, 0))
    os.chdir(here)
    told = [
        "member-00-0.img: attach: Is a directory", "member-01-1.img: attach: Too many levels of symbolic links",
        "member-02-0.img: attach: not a regular file",
    ]
    case.wants("status", [], 0, [
        "array 1024 64 4 32 2", "phase loose", "boundary 0 half 1 1", "boundary 1 half 0 1", "boundary 2 half 1 1", "boundary 3 both 1",
    ], told)
    case.wants("cat /a", [], 8, ["bad magic"], told)
    case.wants("ls /", [], 8, ["bad magic"], told)
    lines = ["fail 0 0", "fail 1 1", "fail 2 0", "read 0", "read 1", "read 2", "fail 0 1", "read 0"]
    case.wants("resume", lines, 0, ["already"] * 3 + ["data b0", "data b1", "data b2", "ok", "unavailable"], told)


def no_image_can_be_attached(case):
    """All images are links to themselves."""
    told = []
    for boundary in range(4):
        for side in (0, 1):
            os.symlink(image_name(boundary, side), case.path(boundary, side))
            told.append(f"{image_name(boundary, side)}: attach: Too many levels of symbolic links")
    told.append("8 images couldn't be opened")
    for words in ("status", "resume", "cat /a", "ls /"):
        case.wants(words, [], 6, ["nostate"], told)


def more_images_than_files_may_be_open(case):
    """Three streams, four that the program holds, the folder among them, and three images; no other image can be made, or opened."""
    others = [image_name(*divmod(member, 2)) for member in range(3, 8)]
    told = [f"{name}: blank: Too many open files" for name in others]
    case.wants("replay", ["array 1024 64 4 32 2", "write 0 b0", "read 0", "fail 1 0", "settle"], 0,
               ["ok", "degraded", "data -", "ok", "lost 1"], told, open_files(10))
    for name in os.listdir(case.folder):
        os.remove(os.path.join(case.folder, name))
    case.save_four()
    told = [f"{name}: attach: Too many open files" for name in others]
    case.wants("status", [], 0, [
        "array 1024 64 4 32 2", "phase worn", "boundary 0 both 1", "boundary 1 half 0 1", "boundary 2 lost 0 1", "boundary 3 lost 0 1",
    ], told, open_files(10))


# ---- images that can't be made longer, or written

def sealed(case, member, seals):
    """An image in memory alone, to which some calls fail, in the place of another one with the same bytes."""
    try:
        descriptor = os.memfd_create("image", os.MFD_ALLOW_SEALING)
    except (AttributeError, OSError) as error:
        raise Skipped(f"no file in memory can be made: {error}") from error
    path = case.path(*member)
    with open(path, "rb") as file:
        os.write(descriptor, file.read())
    fcntl.fcntl(descriptor, fcntl.F_ADD_SEALS, seals)
    os.remove(path)
    os.symlink(f"/proc/{os.getpid()}/fd/{descriptor}", path)
    if not os.path.exists(path):
        raise Skipped("a file in memory has no name here")
    return descriptor


def an_image_that_cannot_be_extended(case):
    """A saved array of the first format gets longer images by its next save: all but one do."""
    folder = Folder(case.folder, volume)
    folder.do_make("1", "F", "4", "64", "2", "settled", "home:3:3", "home:5:2", "home:7:3")
    descriptor = sealed(case, (1, 0), fcntl.F_SEAL_GROW)
    case.wants("resume", ["cat /a", "save", "fail 1 0", "fail 1 1"], 0, ["bytes 68656c6c6f", "end 5", "saved 2", "already", "ok"],
               ["member-01-0.img: extend: Operation not permitted"])
    see("the length of the image", 69284, os.fstat(descriptor).st_size)
    for boundary in range(4):
        for side in (0, 1):
            if (boundary, side) != (1, 0):
                see(f"the length of {image_name(boundary, side)}", 69993, os.path.getsize(case.path(boundary, side)))
                see("another label", None, folder.do_label(boundary, side, *"format 2 number 2 sealed array 1024 128 4 64 2".split()))
    case.wants("status", [], 0, [
        "array 1024 128 4 64 2", "phase settled", "boundary 0 both 4", "boundary 1 half 1 5", "boundary 2 both 55", "boundary 3 both 4",
    ])
    os.close(descriptor)


def a_write_that_fails_on_one_side(case):
    """The member goes out, and its partner goes on alone."""
    case.save_four()
    descriptor = sealed(case, (0, 1), fcntl.F_SEAL_WRITE)
    case.wants("resume", ["read 0", "write 0 c0", "read 0", "write 4 c4", "read 4", "fail 0 1", "save"], 0,
               ["data b0", "ok", "data c0", "ok", "data c4", "already", "saved 2"], ["member-00-1.img: write: Operation not permitted"])
    case.wants("resume", ["fail 0 1", "read 0", "read 4", "fail 0 0", "read 0"], 0, ["already", "data c0", "data c4", "ok", "unavailable"])
    os.close(descriptor)


# ---- calls that do a part

def state_of(pid):
    """`S` where a process waits, `T` where it was stopped, `Z` where it has ended."""
    with open(f"/proc/{pid}/stat", encoding="ascii", errors="replace") as file:
        return file.read().rpartition(")")[2].split()[0]


def wait_for(pid, states):
    end = time.monotonic() + SECONDS
    while time.monotonic() < end:
        state = state_of(pid)
        if state in states:
            return state
        time.sleep(0.001)
    raise Difference(f"the program is in none of the states {states}")


def short_writes_to_a_pipe(case):
    """
    A process that waits in a write to a full pipe, and is stopped and goes on, gets the number of bytes that were taken. The pipe has a page, and
    each reply two and a few bytes.
    """
    if not os.path.exists("/proc/self/stat") or not hasattr(fcntl, "F_SETPIPE_SZ"):
        raise Skipped("a pipe of one page, and what a process does, need Linux")
    block = bytes(1 + at % 255 for at in range(4096)).hex()
    lines = ["array 4096 64 2 32 1", f"write 0 {block}", *["read 0"] * 20]
    want = text("ok", "ok", *[f"data {block}"] * 20).encode()
    out, into = os.pipe()
    fcntl.fcntl(into, fcntl.F_SETPIPE_SZ, 4096)
    with open(os.path.join(case.folder, "trace"), "w+", encoding="ascii") as trace, tempfile.TemporaryFile() as errors:
        trace.write(text(*lines))
        trace.flush()
        trace.seek(0)
        process = subprocess.Popen([case.program, "replay"], stdin=trace, stdout=into, stderr=errors, cwd=case.folder)
        os.close(into)
        got, stops = b"", 0
        try:
            while True:
                if wait_for(process.pid, "SZ") == "S":
                    process.send_signal(signal.SIGSTOP)
                    wait_for(process.pid, "T")
                    process.send_signal(signal.SIGCONT)
                    wait_for(process.pid, "SZ")
                    stops += 1
                piece = os.read(out, 65536)
                if not piece:
                    break
                got += piece
            status = process.wait(SECONDS)
        finally:
            process.kill()
            process.wait()
            os.close(out)
        errors.seek(0)
        see("replay", (0, want, b""), (status, got, errors.read()))
    see("the program was stopped in each reply", True, stops >= 20)


def standard_output_that_takes_a_part(case):
    """A file that can't have more than 5000 bytes."""
    image = bytes(volume("F").bytes)
    words = [case.program, "trace", "up", "4", "64", "2"]
    whole = subprocess.run(words, input=image, capture_output=True, cwd=case.folder, timeout=SECONDS)
    see("trace", (0, b""), (whole.returncode, whole.stderr))
    see("a trace of more than 5000 bytes", True, len(whole.stdout) > 5000)

    def limited():
        signal.signal(signal.SIGXFSZ, signal.SIG_IGN)
        resource.setrlimit(resource.RLIMIT_FSIZE, (5000, 5000))

    with tempfile.TemporaryFile() as output:
        done = subprocess.run(words, input=image, stdout=output, stderr=subprocess.PIPE, cwd=case.folder, timeout=SECONDS, preexec_fn=limited)
        see("trace", (4, b"standard output: write: File too large\n"), (done.returncode, done.stderr))
        output.seek(0)
        see("the first 5000 bytes of the trace", whole.stdout[:5000], output.read())


# On x86-64: the numbers of pread64 and pwrite64, and the places of a call's number, file and count among the registers.
READ_AT, WRITE_AT = 17, 18
NUMBER, FILE, COUNT = 8 * 15, 8 * 14, 8 * 12
TRACEME, PEEKUSER, POKEUSER, SYSCALL, SETOPTIONS = 0, 3, 6, 24, 0x4200
CALLS_APART, ENDS_WITH_TRACER = 1, 1 << 20


@functools.cache
def system_trace():
    """The function `ptrace` of the C library."""
    call = ctypes.CDLL(None, use_errno=True).ptrace
    call.restype = ctypes.c_long
    call.argtypes = [ctypes.c_long, ctypes.c_long, ctypes.c_void_p, ctypes.c_void_p]
    return call


def trace_call(request, pid, at=0, data=0):
    """The call `ptrace` of the C library."""
    call = system_trace()
    ctypes.set_errno(0)
    value = call(request, pid, at, data)
    if value == -1 and ctypes.get_errno():
        raise OSError(ctypes.get_errno(), os.strerror(ctypes.get_errno()))
    return value


class Traced:
    """A process of the program that is traced by this one: it stands at the beginning or the end of a call, or has ended."""

    def __init__(self, case, words, trace, output):
        if platform.machine() != "x86_64" or sys.platform != "linux":
            raise Skipped("the registers of a call are known here for Linux on x86-64 alone")
        self.status, self.pid = None, os.fork()
        if self.pid == 0:
            try:
                os.chdir(case.folder)
                for descriptor, file in ((0, trace), (1, output), (2, output)):
                    os.dup2(file.fileno(), descriptor)
                trace_call(TRACEME, 0)
                os.execv(case.program, [case.program, *words])
            finally:
                os._exit(99)
        if not os.WIFSTOPPED(os.waitpid(self.pid, 0)[1]):
            raise Skipped("no process may be traced here")
        trace_call(SETOPTIONS, self.pid, 0, CALLS_APART | ENDS_WITH_TRACER)

    def goes_on(self):
        """To the next beginning or end of a call, if there is one."""
        given = 0
        while True:
            trace_call(SYSCALL, self.pid, 0, given)
            _, status = os.waitpid(self.pid, 0)
            if not os.WIFSTOPPED(status):
                self.status = os.waitstatus_to_exitcode(status)
                return False
            given = os.WSTOPSIG(status)
            if given == signal.SIGTRAP | 0x80:
                return True

    def get(self, place):
        return trace_call(PEEKUSER, self.pid, place)

    def put(self, place, value):
        trace_call(POKEUSER, self.pid, place, value)

    def begins(self, number):
        """Whether the call that begins has this number, and is of an image."""
        return self.get(NUMBER) == number and os.path.basename(os.readlink(f"/proc/{self.pid}/fd/{self.get(FILE)}")).startswith("member-")

    def end(self):
        if self.status is None:
            os.kill(self.pid, signal.SIGKILL)
            os.waitpid(self.pid, 0)


def halve_calls(process, number):
    """Each call with this number on an image moves the first half of its bytes alone. How many those were."""
    halved = 0
    while process.goes_on():
        count = process.get(COUNT) if process.begins(number) else 0
        if count > 1:
            process.put(COUNT, count // 2)
            halved += 1
        if not process.goes_on():
            break
        if count > 1:
            process.put(COUNT, count)
    return halved


def halve(case, words, lines, number):
    """Runs a command whose calls are halved. Its status, all that it writes, and how many calls those were."""
    with tempfile.TemporaryFile() as trace, tempfile.TemporaryFile() as output:
        trace.write(text(*lines).encode())
        trace.seek(0)
        process = Traced(case, words.split(), trace, output)
        signal.signal(signal.SIGALRM, late)
        signal.alarm(SECONDS)
        try:
            halved = halve_calls(process, number)
        finally:
            signal.alarm(0)
            process.end()
        output.seek(0)
        return process.status, output.read().decode(), halved


def late(*_):
    raise Difference(f"no end in {SECONDS} seconds")


def halved_story(case, number):
    """A block is written, read and saved, and then read again by a run of its own; calls with this number are halved in both."""
    blocks = [bytes(1 + (at * at + block) % 255 for at in range(1024)).hex() for block in range(4)]
    lines = ["array 1024 64 2 32 1", *(f"write {block} {data}" for block, data in enumerate(blocks)), *(f"read {block}" for block in range(4)), "save"]
    data = [f"data {data}" for data in blocks]
    status, output, halved = halve(case, "replay", lines, number)
    see("replay", (0, text("ok", *["ok"] * 4, *data, "saved 1")), (status, output))
    lines = [f"read {block}" for block in range(4)]
    case.wants("resume", lines, 0, data)
    status, output, more = halve(case, "resume", [*lines, "write 4 aa", "read 4", "save"], number)
    see("resume", (0, text(*data, "ok", "data aa", "saved 2")), (status, output))
    case.wants("resume", [*lines, "read 4", "fail 0 0", "fail 1 0", *lines], 0, [*data, "data aa", "ok", "ok", *data])
    see("calls were halved", True, halved + more >= 8)


def short_writes_to_images(case):
    """The system takes the first half of what is written."""
    halved_story(case, WRITE_AT)


def short_reads_of_images(case):
    """The system gives the first half of what is asked for."""
    halved_story(case, READ_AT)


# ---- long images, and many

def members_of_four_gibibytes(case):
    """
    A saved array with room for 2^20 blocks of 4096 bytes on a boundary, of which three are used: the slots 262143 and 262144, which are those around 2^30 bytes, and the
    spare one, whose last 512 bytes stand behind 2^32. The body comes behind it.
    """
    shape, slots = [4096, 64, 2, 1048576, 1], [262143, 262144, 1048576]
    body = bytes([0, 0, 0, 0]) + bytes(4)  # loose, and all members are good
    for block in range(64):
        sites = [(block % 2, slots[block // 2])] if block < 6 else []
        body += bytes([len(sites), 0]) + b"".join(struct.pack("<BI", *site) for site in sites)
    body += bytes(4) + bytes(4) + bytes(1)  # no homes, no copies, no recent files
    place = 512 + 1048577 * 4096
    for member in range(4):
        with open(case.path(member // 2, member % 2), "wb") as file:
            try:
                file.truncate(place + room_for_body(2, shape))
            except OSError as error:
                raise Skipped(f"no file of four gibibytes can be made here: {error}") from error
            file.write(label_bytes(2, 1, b"S", member // 2, member % 2, shape, len(body)))
            for index, slot in enumerate(slots):
                file.seek(512 + slot * 4096)
                file.write(bytes([0xA0 + 2 * index + member // 2]) * 4096)
            file.seek(place)
            file.write(body)
    before = ["data " + f"{0xA0 + block:02x}" * 4096 for block in range(6)]
    reads = [f"read {block}" for block in range(6)]
    case.wants("resume", reads, 0, before)
    writes = [f"write {block} {0xC0 + block:02x}" for block in range(6)]
    after = [f"data {0xC0 + block:02x}" for block in range(6)]
    case.wants("resume", [*reads, *writes, *reads, "write 6 aa", "read 6", "save"], 0, [*before, *["ok"] * 6, *after, "ok", "data aa", "saved 2"])
    for member in range(4):
        with open(case.path(member // 2, member % 2), "rb") as file:
            for index, slot in enumerate(slots):
                file.seek(512 + slot * 4096)
                want = bytes([0xC0 + 2 * index + member // 2]) + bytes(4095)
                see(f"slot {slot} of {image_name(member // 2, member % 2)}", want, file.read(4096))
    case.wants("status", [], 0, ["array 4096 64 2 1048576 1", "phase loose", "boundary 0 both 4", "boundary 1 both 3"])
    case.wants("resume", ["fail 0 0", "fail 1 0", *reads, "read 6", "read 7"], 0, ["ok", "ok", *after, "data aa", "data -"])


def boundaries_with_two_digits(case):
    """Each of sixteen boundaries has a block of its own, on images with its number."""
    data = [f"{0x30 + block:02x}" for block in range(16)]
    case.wants("replay", ["array 512 16 16 1 1", *(f"write {block} {data[block]}" for block in range(16)), "save"], 0, [*["ok"] * 17, "saved 1"])
    for boundary in range(16):
        for side in (0, 1):
            with open(case.path(boundary, side), "rb") as file:
                file.seek(512)
                see(f"slot 0 of {image_name(boundary, side)}", bytes([0x30 + boundary]) + bytes(511), file.read(512))
    reads = [f"read {block}" for block in range(16)]
    case.wants("resume", reads, 0, [f"data {digits}" for digits in data])
    for boundary in (10, 13):
        os.remove(case.path(boundary, 0))
    os.remove(case.path(11, 1))
    lines = ["fail 10 0", "fail 13 0", "fail 11 1", *reads, "fail 13 1", "fail 12 0", *reads]
    first, then = [f"data {digits}" for digits in data], [f"data {digits}" for digits in data]
    then[13] = "unavailable"
    case.wants("resume", lines, 0, ["already"] * 3 + first + ["ok", "ok"] + then)


CASES = [
    images_that_cannot_be_attached, no_image_can_be_attached, more_images_than_files_may_be_open, an_image_that_cannot_be_extended,
    a_write_that_fails_on_one_side, short_writes_to_a_pipe, standard_output_that_takes_a_part, short_writes_to_images, short_reads_of_images,
    members_of_four_gibibytes, boundaries_with_two_digits,
]


def main():
    program, words, counts = os.path.abspath(sys.argv[1]), " ".join(sys.argv[2:]), {"passed": 0, "failed": 0, "skipped": 0}
    for case in CASES:
        name = case.__name__.replace("_", " ")
        if words not in name:
            continue
        end, why = "passed", ""
        with tempfile.TemporaryDirectory() as folder:
            try:
                case(Case(program, folder))
            except Difference as difference:
                end, why = "failed", f": {difference}"
            except subprocess.TimeoutExpired as late_one:
                end, why = "failed", f": no end in {late_one.timeout} seconds"
            except Skipped as reason:
                end, why = "skipped", f": {reason}"
        counts[end] += 1
        print(f"{end}: {name}{why}", flush=True)
    print(", ".join(f"{count} {end}" for end, count in counts.items()))
    return 1 if counts["failed"] else 0


if __name__ == "__main__":
    sys.exit(main())
