"""Checks a crate as `rt check` does, and begins at once.

    tools/proof check CRATE [FLAG..]      the flags are those of `rt check`

`rt check` adds up the sources of each crate below once for each way that leads down to it, and looks at all their
texts: a minute of a processor for `build`. This makes each sum once, and leaves that look to `rt ci`.
"""
import os
import sys

from common import CRATES, keep_sums, toolchain


def main(words):
    if not words or not os.path.isdir(f"{CRATES}/{words[0]}/src"):
        sys.exit(__doc__)
    rt = toolchain()
    keep_sums(rt.rtlib.Crate)
    rt.rtlib.stop_on_text = lambda *_: None
    os.chdir(f"{CRATES}/{words[0]}")
    sys.exit(rt.main(["check", *words[1:]]))
