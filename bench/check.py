"""Checks sound volumes of 2^12, 2^16 and 2^20 fragments of 512 bytes, and prints what that takes.

Files of two blocks, and each sixteenth of 20 blocks and an indirect one, are in directories of 64 files each. The time of a check is the
difference of runs with more checks and with one, divided by the checks; the reading of the image and the table of claims aren't in
it. The images stand in a temporary folder (TMPDIR says where). A verdict that isn't `Sound` ends the script with exit status 1, and so
does a time per fragment and per bit of their number that grows by more than a factor of 2 from 2^12 to 2^20.
"""
from programs import compare
from volumes import FRAGMENTS, Volume

FRAGMENT = 512
IN_DIRECTORY = 64
FEW_BLOCKS, MANY_BLOCKS, MANY_EACH = 2, 20, 16


def sound_volume(fragments):
    """A volume with about as many files as fit."""
    few, many = (b"x" * (blocks * FRAGMENTS * FRAGMENT) for blocks in (FEW_BLOCKS, MANY_BLOCKS))
    mean = ((MANY_EACH - 1) * FEW_BLOCKS + MANY_BLOCKS + 1) * FRAGMENTS / MANY_EACH + 1
    count = int((fragments - 200) * 0.98 / mean)
    return Volume(FRAGMENT, fragments, [few if i % MANY_EACH else many for i in range(count)], IN_DIRECTORY)


if __name__ == "__main__":
    compare("check", sound_volume, r"Sound\n", r"no check was asked for\n")
