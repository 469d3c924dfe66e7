"""Prints how many checks of `rt ci` go side by side here.

    tools/proof lanes

That is one for each processor, and at most one for each 3.5 GB of free memory. `rt ci` reckons that a check takes two
to four times the memory that it does (`tables` 10.8 GB, `trees` 8.4, `build` 7.9; the most that was seen of one is
4.7). So on two processors with 12 GB it would prove most crates one by one. If RT_JOBS tells it a number, it reckons
with no memory. `.ci/run` sets RT_JOBS to what this prints.
"""
from common import toolchain

BYTES_OF_A_CHECK = 3_500_000_000


def lanes():
    """The toolchain knows the limits that a control group sets."""
    rt = toolchain()
    return max(1, min(rt.processors(), rt.free() // BYTES_OF_A_CHECK))


def main(_words):
    print(lanes())
