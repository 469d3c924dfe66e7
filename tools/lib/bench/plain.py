"""Times a plain Rust program on the largest kinds of `tools/bench kinds`, to compare with.

    tools/bench plain [KIND..]      of huge_image, walked_image, ignored and walked; all four where none is named

The program is in `plain-rust/` beside this file. Cargo builds it, with two libraries from crates.io. It answers these
kinds byte for byte as dfsolve does, by one thread, and knows nothing beyond what they ask.
"""
import subprocess
import sys

from bench.kinds import print_table
from common import LIB

KINDS = ["huge_image", "walked_image", "ignored", "walked"]
FOLDER = f"{LIB}/bench/plain-rust"


def main(words):
    if not set(words) <= set(KINDS):
        sys.exit(__doc__)
    if subprocess.run(["cargo", "build", "--release", "--quiet"], cwd=FOLDER, check=False).returncode:
        sys.exit("cargo builds no program")
    print_table(f"{FOLDER}/target/release/plain-rust", ["1"], words or KINDS)
