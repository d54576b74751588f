"""Sees how much memory a trace and an audit of an image hold at once, whatever image it is.

    images.py PROGRAM SHIM

The images have one byte more than 33 MiB, so that one which is held in twice its bytes shows: zeros, whose superblock is refused; and the volume F of
the rows with zeros behind it, which is longer than its volume. Each is given as a file and through a pipe. SHIM (built of refuse.c) counts the bytes
that the program holds. There may be as many as the image has, the 1 MiB for which room is taken at once, two pieces of what is read at once, and
256 KiB for all else. The replies must be those to the image that they rest on alone. The status is 1 where one of this isn't so.
"""
import os
import subprocess
import sys
import tempfile

HERE = os.path.dirname(os.path.abspath(__file__))
sys.path.insert(0, os.path.join(HERE, "..", "soak"))
from rows import F  # noqa: E402

SECONDS = 60
USAGE = 1
LENGTH = (33 << 20) + 1
PIECE = 65536
ROOM = 1 << 20
REST = 256 << 10
VOLUME = b"".join(F)
NONE = bytes(9568)
COMMANDS = [["trace", "late", "4", "64", "2"], ["audit"]]
# a name, the image, and a short one that is answered alike
IMAGES = [("refused", bytes(LENGTH), NONE), ("longer than its volume", VOLUME.ljust(LENGTH, b"\0"), VOLUME), ("its volume alone", VOLUME, VOLUME)]


def run(program, shim, counter, words, image, piped):
    """One run: its replies and its status, and the most bytes that it held at once."""
    with open(counter, "wb") as file:
        file.write(bytes(24))
    environment = {**os.environ, "LD_PRELOAD": shim, "REFUSE_COUNT": counter, "REFUSE_AT": "0"}
    with tempfile.TemporaryFile() as source:
        source.write(image)
        source.seek(0)
        given = {"input": image} if piped else {"stdin": source}
        done = subprocess.run([program, *words], capture_output=True, env=environment, timeout=SECONDS, **given)
    with open(counter, "rb") as file:
        numbers = file.read()
    return (done.stdout, done.stderr, done.returncode), int.from_bytes(numbers[16:], "little")


def main():
    program, shim = os.path.abspath(sys.argv[1]), sys.argv[2]
    wrong = 0
    with tempfile.TemporaryDirectory() as folder:
        counter = os.path.join(folder, "count")
        for name, image, short in IMAGES:
            for words in COMMANDS:
                wanted, _ = run(program, shim, counter, words, short, False)
                if not wanted[0] or wanted[1] or wanted[2] == USAGE:
                    sys.exit(f"{' '.join(words)}, the short image that is {name}: {wanted}")
                for piped in [False, True]:
                    ended, most = run(program, shim, counter, words, image, piped)
                    good = ended == wanted and 0 < most <= len(image) + ROOM + 2 * PIECE + REST
                    wrong += not good
                    print(f"{' '.join(words)}, an image that is {name}, {'a pipe' if piped else 'a file'}: {len(image)} bytes, {most} held at once"
                          f"{'' if ended == wanted else ', and other replies'}{'' if good else ': WRONG'}", flush=True)
    print(f"{wrong} wrong")
    sys.exit(wrong > 0)


if __name__ == "__main__":
    main()
