"""Sees that saved.py finds programs whose saves are wrong: each is the program, behind which its images are changed.

    wrong_saves.py PROGRAM

Prints what isn't found; the status is 1 where something isn't, or where a difference is found with the program itself.
"""
import os
import subprocess
import sys
import tempfile

HERE = os.path.dirname(os.path.abspath(__file__))
ROUNDS = ["--rounds", "8", "--length", "40"]

# What is done to the bytes of each image (`image`, a bytearray, and `name`) behind a replay or a resume that was done.
CHANGES = {
    "no label is written": "image[:512] = bytes(512)",
    "no label is written on side 1 of boundary 1": "if name == 'member-01-1.img': image[:512] = bytes(512)",
    "labels keep the number of the save before": "if any(image[8:16]): image[8] = image[8] - 1 & 255",
    "labels are opened": "if image[16] == ord('S'): image[16] = ord('O')",
    "no label is opened": "if image[16] == ord('O'): image[16] = ord('S')",
    "no body is written": "l, n, b, k, m, body = struct.unpack_from('<6I', image, 20); at = 512 + (k + 1) * l; image[at:at + body] = bytes(body)",
}

WRONG = """#!{python}
import os, struct, subprocess, sys
status = subprocess.call([{program!r}, *sys.argv[1:]])
if status == 0 and sys.argv[1] in ("replay", "resume"):
    for name in sorted(os.listdir(".")):
        if name.startswith("member-") and name.endswith(".img"):
            with open(name, "r+b") as file:
                image = bytearray(file.read())
                {change}
                file.seek(0)
                file.write(image)
sys.exit(status)
"""


def finds(program):
    """Whether saved.py finds a difference."""
    done = subprocess.run([sys.executable, "-B", os.path.join(HERE, "saved.py"), program, *ROUNDS], capture_output=True, check=False)
    if done.returncode not in (0, 1) or done.stderr:
        sys.exit(f"saved.py ended with status {done.returncode}: {done.stderr.decode()}")
    return done.returncode == 1


def main():
    program, well = os.path.abspath(sys.argv[1]), True
    if finds(program):
        print("a difference is found with the program itself")
        well = False
    with tempfile.TemporaryDirectory() as folder:
        for number, (name, change) in enumerate(CHANGES.items()):
            path = os.path.join(folder, f"wrong{number}")
            with open(path, "w", encoding="ascii") as file:
                file.write(WRONG.format(python=sys.executable, program=program, change=change))
            os.chmod(path, 0o755)
            if not finds(path):
                print(f"not found: {name}")
                well = False
    print(f"{len(CHANGES)} wrong programs" + (", each found" if well else ""))
    return 0 if well else 1


if __name__ == "__main__":
    sys.exit(main())
