"""Runs of the program that are stopped at a call on an image: from it on all such calls fail, or the process is killed there.

The process is traced by this one (`ptrace`, as in tests/adapters/calls.py), and a filter lets it stand at the calls that may be on an image
alone. Where no process may be traced, a run is killed once some of its replies were read, so between two events.
"""
import collections
import ctypes
import functools
import os
import platform
import signal
import struct
import subprocess
import sys
import tempfile

HERE = os.path.dirname(os.path.abspath(__file__))
sys.path.append(os.path.join(HERE, "..", "adapters"))
from calls import COUNT, FILE, NUMBER, PEEKUSER, POKEUSER, READ_AT, SETOPTIONS, SYSCALL, TRACEME, WRITE_AT, trace_call  # noqa: E402

SECONDS = 60
PAGE = 512
# On x86-64: the numbers of the other calls that may be on an image, and the places of a call's answer and of its second value.
OPEN_AT, TRUNCATE, FLUSH, FLUSH_DATA = 257, 77, 74, 75
ANSWER, PATH, PLACE = 8 * 10, 8 * 13, 8 * 7
CALLS = (OPEN_AT, READ_AT, WRITE_AT, TRUNCATE, FLUSH, FLUSH_DATA)
WRITING = (WRITE_AT, TRUNCATE)
GO_ON, SEES_FILTER, ENDS_WITH_TRACER, FILTER_STOP = 7, 1 << 7, 1 << 20, signal.SIGTRAP | 7 << 8
INPUT_OUTPUT_ERROR = 5
NO_NEW_PRIVILEGES, SET_FILTER, BY_PROGRAM = 38, 22, 2
ALLOWED, TRACED = 0x7FFF0000, 0x7FF00000

# how: `fail`, `kill` or `tear` (the call that is a write does a front of it, and the process is killed); behind how many bytes of output, at
# which call on an image counted from there
Stop = collections.namedtuple("Stop", "how behind call")
# output, status (None where it was killed), what it told, and how much was printed when it was stopped (None where it wasn't)
Ended = collections.namedtuple("Ended", "output status told stopped")


def late(*_):
    raise subprocess.TimeoutExpired("the program", SECONDS)


@functools.cache
def filter_of_calls():
    """The system's program that stops a process at these calls, and the structure that names it."""
    steps = [(0x20, 0, 0, 0)]
    steps += [(0x15, len(CALLS) - at, 0, call) for at, call in enumerate(CALLS)]
    steps += [(0x06, 0, 0, ALLOWED), (0x06, 0, 0, TRACED)]
    text = ctypes.create_string_buffer(b"".join(struct.pack("<HBBI", *step) for step in steps))
    return text, ctypes.create_string_buffer(struct.pack("<HxxxxxxQ", len(steps), ctypes.addressof(text)))


def begin(program, words, folder, files):
    """What a new process does until it is the program."""
    os.chdir(folder)
    for descriptor, file in enumerate(files):
        os.dup2(file.fileno(), descriptor)
    control = ctypes.CDLL(None).prctl
    control.argtypes = [ctypes.c_long] * 5
    trace_call(TRACEME, 0)
    os.kill(os.getpid(), signal.SIGSTOP)
    control(NO_NEW_PRIVILEGES, 1, 0, 0, 0)
    control(SET_FILTER, BY_PROGRAM, ctypes.addressof(filter_of_calls()[1]), 0, 0)
    os.execv(program, [program, *words])


class Traced:
    """A process of the program that stands at its calls that may be on an image."""

    def __init__(self, program, words, folder, files):
        filter_of_calls()
        self.status, self.pid = None, os.fork()
        if self.pid == 0:
            try:
                begin(program, words, folder, files)
            finally:
                os._exit(99)
        os.waitpid(self.pid, 0)
        trace_call(SETOPTIONS, self.pid, 0, SEES_FILTER | ENDS_WITH_TRACER)

    def goes_on(self, request=GO_ON):
        """To the next such call, if there is one; or with `SYSCALL` to the end of this one."""
        given = 0
        while True:
            trace_call(request, self.pid, 0, given)
            _, status = os.waitpid(self.pid, 0)
            if not os.WIFSTOPPED(status):
                self.status = os.waitstatus_to_exitcode(status)
                return False
            if status >> 8 == FILTER_STOP or request == SYSCALL:
                return True
            given = os.WSTOPSIG(status) if os.WSTOPSIG(status) != signal.SIGTRAP else 0

    def get(self, place):
        return trace_call(PEEKUSER, self.pid, place)

    def put(self, place, value):
        trace_call(POKEUSER, self.pid, place, value & (1 << 64) - 1)

    def is_on_image(self):
        """Whether the call at which it stands is on an image."""
        if self.get(NUMBER) == OPEN_AT:
            with open(f"/proc/{self.pid}/mem", "rb", buffering=0) as memory:
                return os.pread(memory.fileno(), 7, self.get(PATH)) == b"member-"
        path = os.readlink(f"/proc/{self.pid}/fd/{self.get(FILE)}")
        return os.path.basename(path).startswith("member-")

    def fail(self):
        """The call isn't made, and fails."""
        self.put(NUMBER, -1)
        self.put(ANSWER, -INPUT_OUTPUT_ERROR)

    def tear(self):
        """A write of more than a page does some pages of it alone; one of less, behind the headers, some bytes."""
        if self.get(NUMBER) != WRITE_AT:
            return
        count = self.get(COUNT)
        part = PAGE * (count // PAGE // 2) or (count // 2 if self.get(PLACE) >= 2 * PAGE else 0)
        if part:
            self.put(COUNT, part)
            self.goes_on(SYSCALL)

    def end(self):
        if self.status is None:
            os.kill(self.pid, signal.SIGKILL)
            os.waitpid(self.pid, 0)


def go_through(process, stop, printed, counted):
    """Lets the process run, and stops it as it is to be, at one of the calls that are counted. How much was printed then."""
    calls, stopped = 0, None
    while process.goes_on():
        if stopped is None and printed() < stop.behind or not process.is_on_image():
            continue
        calls += process.get(NUMBER) in counted
        if calls < stop.call:
            continue
        if stopped is None:
            stopped = printed()
        if stop.how == "fail":
            process.fail()
            continue
        if stop.how == "tear":
            process.tear()
        break
    return stopped


def stopped_run(program, words, folder, trace, stop, counted=CALLS):
    """A run that is stopped at a call, of those that are counted; it goes to its end where there is no such call."""
    with tempfile.TemporaryFile() as given, tempfile.TemporaryFile() as output, tempfile.TemporaryFile() as told:
        given.write(trace)
        given.seek(0)
        process = Traced(program, words, folder, (given, output, told))
        signal.signal(signal.SIGALRM, late)
        signal.alarm(SECONDS)
        try:
            stopped = go_through(process, stop, lambda: os.fstat(output.fileno()).st_size, counted)
        finally:
            signal.alarm(0)
            process.end()
        output.seek(0)
        told.seek(0)
        return Ended(output.read(), process.status, told.read(), stopped)


def whole_run(program, words, folder, trace):
    """A run to its end."""
    done = subprocess.run([program, *words], input=trace, capture_output=True, cwd=folder, timeout=SECONDS, check=False)
    return Ended(done.stdout, done.returncode, done.stderr, None)


def killed_run(program, words, folder, front, behind):
    """A run that is given a front of its trace, and killed once so much of its output was read."""
    with subprocess.Popen([program, *words], stdin=subprocess.PIPE, stdout=subprocess.PIPE, stderr=subprocess.PIPE, cwd=folder) as process:
        signal.signal(signal.SIGALRM, late)
        signal.alarm(SECONDS)
        try:
            process.stdin.write(front)
            process.stdin.flush()
            output, piece = b"", b"."
            while len(output) < behind and piece:
                piece = os.read(process.stdout.fileno(), 65536)
                output += piece
        finally:
            signal.alarm(0)
            process.kill()
        rest, told = process.stdout.read(), process.stderr.read()
    return Ended(output + rest, None, told, len(output))


@functools.cache
def may_trace():
    """Whether a process can be traced here as it is done."""
    if platform.machine() != "x86_64" or sys.platform != "linux":
        return False
    with tempfile.TemporaryDirectory() as folder, tempfile.TemporaryFile() as stream:
        try:
            process = Traced("/bin/true", [], folder, (stream, stream, stream))
            count = 0
            while process.goes_on():
                count += 1
        except OSError:
            return False
    return process.status == 0 and count > 0
