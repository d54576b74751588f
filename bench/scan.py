"""Makes the table of claims of volumes of 2^12, 2^16 and 2^20 fragments of 512 bytes, and prints what that takes.

Nearly all fragments of a volume are claimed, by files of 65 file blocks, of which one is indirect. The time of a scan is the difference
of runs with more scans and with one, divided by the scans; the reading of the image isn't in it. Each fragment's claims are
looked up once after each scan, which is in it. The images stand in a temporary folder (TMPDIR says where). The exit status is 1 where
the time per fragment and per bit of their number grows by more than a factor of 2 from 2^12 to 2^20.
"""
from programs import compare
from volumes import FRAGMENTS, Volume

FRAGMENT = 512
FILE_BLOCKS = 64


def full_volume(fragments):
    """A volume with as many files as fit."""
    in_file = (FILE_BLOCKS + 1) * FRAGMENTS
    count = (fragments - 200) // (in_file + 10)
    return Volume(FRAGMENT, fragments, [b"x" * (FILE_BLOCKS * FRAGMENTS * FRAGMENT)] * count)


LINE = r"\d+ of \d+ fragments are claimed\n"
if __name__ == "__main__":
    compare("scan", full_volume, LINE, LINE)
