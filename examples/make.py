"""Makes each NAME.spf of this folder from NAME.txt:

    python3 examples/make.py [--run]

The bytes of a line stand in hexadecimal before its `#`. A comment that begins with a number and a colon gives the offset of the line's first
byte, and is held to it. With --run, each `python3 tools/run_file.py` line of README.md is run, and held to the lines that follow it there."""
import glob
import os
import re
import shlex
import subprocess
import sys

HERE = os.path.dirname(os.path.abspath(__file__))


def made(path):
    """The bytes that a text gives."""
    made = b""
    for i, line in enumerate(open(path, encoding="utf8"), 1):
        code, _, comment = line.partition("#")
        offset = re.match(r"\s*(\d+):", comment)
        if offset and int(offset[1]) != len(made):
            sys.exit(f"{path}:{i}: the offset is {len(made)}")
        made += bytes.fromhex(code)
    return made


def runs():
    """The run lines of README.md, each with the lines that follow it."""
    text = open(os.path.join(HERE, "README.md"), encoding="utf8").read()
    for m in re.finditer(r"^    (python3 tools/run_file\.py .*)\n((?:    (?!python3).*\n)+)", text, re.M):
        yield m[1], "".join(line.strip() + "\n" for line in m[2].splitlines())


def main():
    texts = sorted(glob.glob(os.path.join(HERE, "*.txt")))
    for path in texts:
        with open(path[:-4] + ".spf", "wb") as f:
            f.write(made(path))
    print(f"{len(texts)} files made")
    if "--run" in sys.argv[1:]:
        count = 0
        for line, told in runs():
            got = subprocess.run([sys.executable, *shlex.split(line)[1:]], cwd=os.path.join(HERE, ".."), capture_output=True, text=True)
            if got.stdout != told:
                sys.exit(f"{line}\nREADME.md has:\n{told}now:\n{got.stdout}{got.stderr}")
            count += 1
        print(f"{count} runs print what README.md has")


if __name__ == "__main__":
    main()
