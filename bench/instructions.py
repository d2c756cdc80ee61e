#!/usr/bin/env python3
"""Counts the instructions of `tsnbridge wire`, `run` and `net` by callgrind: instructions.py [--record] [--of PROGRAM] [CASE ..]

Compares each count with the recorded count of bench/instructions.txt. The status is 1 if a count is more than 2 % above it. --record
writes the counts of all cases instead. Counts don't depend on the load of the machine, so one run suffices. Needs `valgrind`.
PROGRAM is release/tsnbridge by default. A case has a tenth of the frames of the case of that name in docs/SPEED.md.
"""
import os
import re
import shutil
import subprocess
import sys
import tempfile

import captures

TOP = os.path.dirname(os.path.dirname(os.path.abspath(__file__)))
RECORD = os.path.join(TOP, "bench", "instructions.txt")
# By name: ports, frames of each port, filters of each port, entries of each list.
RUNS = {
    "run-4x25k": (4, 25_000, 1, 0),
    "run-many-4x25k": (4, 25_000, 255, 0),
    "run-long-4x25k": (4, 25_000, 1, 256),
    "run-16x20k": (16, 20_000, 1, 0),
}
# By name: frames, sizes.
WIRES = {"wire-64-100k": (100_000, "64"), "wire-mixed-100k": (100_000, "mixed")}


def count(program, words):
    """Returns the number of instructions of a run of the program."""
    line = ["valgrind", "--tool=callgrind", "--callgrind-out-file=/dev/null", program, *words]
    done = subprocess.run(line, stdout=subprocess.DEVNULL, stderr=subprocess.PIPE, text=True)
    found = re.search(r"Collected : (\d+)", done.stderr)
    if done.returncode != 0 or not found:
        sys.exit(f"{' '.join(line)} ended with {done.returncode}:\n{done.stderr[-800:]}")
    return int(found[1])


def count_case(program, name, work):
    """Returns the number of instructions of a case. Its files lie in the folder `work`."""
    output = os.path.join(work, "out")
    os.makedirs(output)
    if name in WIRES:
        source = os.path.join(work, "in.pcap")
        captures.write(source, *WIRES[name])
        return count(program, ["wire", "1000", "64", source, os.path.join(output, "out.pcap")])
    ports, frames, flows, entries = RUNS[name]
    captures.write_all(work, ports, frames, "mixed", flows, entries)
    return count(program, ["run", os.path.join(work, "plan.toml"), os.path.join(work, "in"), output])


def recorded():
    """Returns the recorded counts by case."""
    with open(RECORD, encoding="utf-8") as file:
        rows = [line.split() for line in file if line.strip() and not line.startswith("#")]
    return {name: int(number) for name, number in rows}


def main():
    words, program, is_record = sys.argv[1:], os.path.join(TOP, "release", "tsnbridge"), False
    if "--record" in words:
        words.remove("--record")
        is_record = True
    if "--of" in words:
        at = words.index("--of")
        program = os.path.abspath(words[at + 1])
        del words[at:at + 2]
    if not shutil.which("valgrind"):
        print("bench/instructions.py: nothing was counted, because there is no valgrind")
        return 0
    names = words or [*RUNS, *WIRES]
    before, counts, grown = {} if is_record else recorded(), {}, False
    for name in names:
        work = tempfile.mkdtemp(prefix="tsnbridge-count-")
        try:
            counts[name] = count_case(program, name, work)
        finally:
            shutil.rmtree(work)
        share = f", {counts[name] / before[name]:.3f} of the recorded count" if name in before else ""
        grown |= name in before and counts[name] > 1.02 * before[name]
        print(f"{name}: {counts[name]:,} instructions{share}", flush=True)
    if is_record:
        with open(RECORD, "w", encoding="utf-8") as file:
            file.write("# Instructions of each case of bench/instructions.py, written by `bench/instructions.py --record`.\n")
            file.writelines(f"{name} {number}\n" for name, number in counts.items())
    if grown:
        print("bench/instructions.py: a count is more than 2 % above the recorded count")
    return int(grown)


if __name__ == "__main__":
    sys.exit(main())
