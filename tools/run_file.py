"""Runs a procedure file on both machines, from main:

    python3 tools/run_file.py FILE ARGUMENT.. [--depth N] [--budget N]

Puts the header of an input of `both` (docs/FORMAT.md) before the file, and prints what `both` prints. `rt run` in crates/both makes the program."""
import argparse
import os
import subprocess
import sys

from records import GREATEST, LEAST, header

PROGRAM = os.path.join(os.path.dirname(os.path.abspath(__file__)), "..", "crates", "both", "out", "both")


def number(least, greatest):
    """A reader of whole numbers in a range."""
    def read(text):
        n = int(text)
        if not least <= n <= greatest:
            raise argparse.ArgumentTypeError(f"{n} is not in {least} to {greatest}")
        return n
    return read


def main():
    parser = argparse.ArgumentParser(description="Runs a procedure file on both machines, from main.")
    parser.add_argument("file", help="the procedure file")
    parser.add_argument("arguments", nargs="*", type=number(LEAST, GREATEST), help="main's arguments, 255 at most")
    parser.add_argument("--depth", type=number(0, 65535), default=256, help="the depth limit (default 256; above 256 the run is refused)")
    parser.add_argument("--budget", type=number(0, 2 ** 32 - 1), default=1000000, help="the bench's budget (default 1,000,000)")
    given = parser.parse_intermixed_args()
    if len(given.arguments) > 255:
        parser.error("more than 255 arguments")
    if not os.path.exists(PROGRAM):
        parser.error("crates/both/out/both is missing: run `rt run < stdin` in crates/both first")
    try:
        with open(given.file, "rb") as f:
            procedure = f.read()
    except OSError as e:
        parser.error(str(e))
    return subprocess.run([PROGRAM], input=header(given.arguments, given.depth, given.budget) + procedure).returncode


if __name__ == "__main__":
    sys.exit(main())
