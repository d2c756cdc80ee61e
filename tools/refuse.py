#!/usr/bin/env python3
"""Refuses allocations of the program, one in each run: refuse.py FIRST LAST ARGUMENT..

Runs the program on the arguments while allocation FIRST is refused, then the next one, up to LAST (`rt try --fail-alloc`). The argument
`in.pcap` is a capture of two frames, `base.toml` the plan of `examples/`. Each run must end as it does with memory, or with `no memory`
and status 3. The script prints any other run, and then ends with status 1. A run takes some seconds.
"""
import os
import subprocess
import sys
import tempfile

TOP = os.path.dirname(os.path.dirname(os.path.abspath(__file__)))
sys.path.append(os.path.join(TOP, "bench"))
import captures
PLAN = os.path.join(TOP, "examples", "base.toml")
NEVER = 1_000_000_000


def ending(growth, words, capture):
    """What a run prints, and its status, where this growth is refused."""
    line = ["rt", "try", "--fail-alloc", str(growth), "--data", "in.pcap=" + capture,
            "--data", "base.toml=" + PLAN, "--", *words]
    done = subprocess.run(line, cwd=os.path.join(TOP, "crates", "tsnbridge"), stdin=subprocess.DEVNULL,
                          stdout=subprocess.PIPE, stderr=subprocess.STDOUT, text=True)
    said = [text for text in done.stdout.splitlines()
            if text and not text.startswith(("allocations:", "checked:", "interpreter:", "run="))]
    status = [word for text in done.stdout.splitlines() if text.startswith("run=ended") for word in text.split()
              if word.startswith("status=")]
    return said, status


def main():
    if len(sys.argv) < 3:
        sys.exit(__doc__)
    first, last, words = int(sys.argv[1]), int(sys.argv[2]), sys.argv[3:]
    with tempfile.TemporaryDirectory() as folder:
        capture = os.path.join(folder, "in.pcap")
        captures.write(capture, 2, "64")
        wanted = ending(NEVER, words, capture)
        print("with memory:", wanted, flush=True)
        refused, other = 0, 0
        for growth in range(first, last + 1):
            ended = ending(growth, words, capture)
            if ended == (["no memory"], ["status=3"]):
                refused += 1
            elif ended != wanted:
                other += 1
                print(f"growth {growth}:", ended, flush=True)
        print(f"growths {first} to {last}: {refused} answered no memory, {last - first + 1 - refused - other} as with memory, {other} otherwise")
    sys.exit(1 if other else 0)


if __name__ == "__main__":
    main()
