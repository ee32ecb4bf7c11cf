#!/usr/bin/env python3
"""A batch of station files in one input, with the output that a driver of all three programs must give for it.

A frame is one byte for the program (`w` rewrite, `j` join, `c` check), a station file, and a zero byte, so that a file
with a zero byte in it has no frame. The output has for each frame what the program prints, its status as a digit, and a
newline.

    python3 compare/frames.py --seed 1 --count 3000 STDIN_PATH STDOUT_PATH
"""

from __future__ import annotations

import argparse
import sys
from collections.abc import Sequence
from pathlib import Path

sys.dont_write_bytecode = True

import generate  # noqa: E402
import second  # noqa: E402

MARKS = {"rewrite": b"w", "join": b"j", "check": b"c"}


def main(arguments: Sequence[str]) -> int:
    parser = argparse.ArgumentParser(description="Writes a batch of framed station files and the output it must give.")
    parser.add_argument("--seed", type=int, default=1)
    parser.add_argument("--count", type=int, default=3000)
    parser.add_argument("--full-every", type=int, default=25, help="every how manyth file is of full size")
    parser.add_argument("stdin_path", type=Path)
    parser.add_argument("stdout_path", type=Path)
    options = parser.parse_args(arguments)
    coverage = generate.Coverage()
    frames = 0
    with options.stdin_path.open("wb") as given, options.stdout_path.open("wb") as expected:
        for case in generate.cases(options.seed, options.count, options.full_every):
            if b"\0" in case.data:
                continue
            printed, status = second.PROGRAMS[case.program](case.data)
            given.write(MARKS[case.program] + case.data + b"\0")
            expected.write(printed + b"%d\n" % status)
            coverage.note(case.program, printed)
            frames += 1
    print(coverage.table())
    sizes = [path.stat().st_size for path in (options.stdin_path, options.stdout_path)]
    print(f"{frames} frames, {sizes[0]} bytes in, {sizes[1]} bytes out")
    return 0


if __name__ == "__main__":
    sys.exit(main(sys.argv[1:]))
