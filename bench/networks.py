#!/usr/bin/env python3
"""Times `tsnbridge net` beside the same runs of single bridges over files: networks.py [BRIDGES FRAMES] [--tables] [--instructions]

Two networks of so many bridges (16 by default), a row and a ring, and so many frames (1,000,000 by default) of 64 octets of
one stream, which go from the first bridge to the last one. `net` runs the network; beside it `run` runs bridge after bridge,
each over what the one before it wrote. The links have no delay, so the captures of both have to be the same, octet for
octet. It prints the times and the peak memory, and whether the captures are the same. With `--tables` the single runs write
their tables too, as `net` does, where frames go through them. With `--instructions` it counts instructions by callgrind instead
of times, so that the ratio doesn't depend on the load of the machine; take about 5,000 frames. All files go into a new folder,
which is removed at the end.
"""
import filecmp
import os
import shutil
import struct
import subprocess
import sys
import tempfile
import time

import instructions

TOP = os.path.dirname(os.path.dirname(os.path.abspath(__file__)))
BUILT = os.path.join(TOP, "crates", "tsnbridge", "out", "tsnbridge")
PROGRAM = BUILT if os.path.exists(BUILT) else os.path.join(TOP, "release", "tsnbridge")
ADDRESS = bytes.fromhex("91e0f000fe0a")
HEADER = struct.pack("<IHHIIII", 0xA1B23C4D, 2, 4, 0, 0, 65535, 1)
PLAN = """
[[vlan]]
vid = 10
members = [{source}, {target}]

[[static]]
vid = 10
address = "91-E0-F0-00-FE-0A"
ports = [{target}]

[[stream]]
handle = 10
port = {source}
kind = "null"
address = "91-E0-F0-00-FE-0A"
vid = 10
tag = "tagged"

[[gate]]
number = 10
state = "open"
ipv = 7

[[filter]]
number = 10
handle = 10
gate = 10
max_sdu = 128
protected = true

[[gate]]
number = 99
state = "open"
ipv = 0

[[filter]]
number = 99
gate = 99
"""
PORT = """
[[port]]
number = {number}
mbps = 1000
cycle = 20000
rooms = [64, 64, 64, 64, 64, 64, 64, 64]
gates = [
  {{ open = [7], ns = 14000 }},
  {{ open = [0, 1, 2, 3, 4, 5, 6], ns = 6000 }},
]
"""


def ways(bridges, is_ring):
    """Of each bridge the port where the stream comes in, the one where it leaves, and how many ports there are."""
    if not is_ring:
        return [(1, 2, 2)] * bridges
    return [(3 if b == 0 else 1, 3 if b == bridges - 1 else 2, 3) for b in range(bridges)]


def write_plans(folder, bridges, is_ring):
    """Makes the plans and the file of a network."""
    text = ""
    for b, (source, target, ports) in enumerate(ways(bridges, is_ring)):
        with open(os.path.join(folder, f"b{b}.toml"), "w", encoding="ascii") as file:
            file.write("".join(PORT.format(number=q) for q in range(1, ports + 1)) + PLAN.format(source=source, target=target))
        text += f'[[bridge]]\nname = "b{b}"\nplan = "b{b}.toml"\n\n'
    for b in range(bridges if is_ring else bridges - 1):
        text += f'[[link]]\none = "b{b}.2"\nother = "b{(b + 1) % bridges}.1"\n\n'
    hops = ", ".join(f'"b{b}.10"' for b in range(bridges))
    with open(os.path.join(folder, "network.toml"), "w", encoding="ascii") as file:
        file.write(text + f'[[stream]]\nname = "long"\nhops = [{hops}]\n')


def write_capture(path, frames):
    """Makes a capture of frames of the stream, one each 1,344 ns."""
    body = ADDRESS + bytes.fromhex("0200000000018100e00a88b5") + bytes(46)
    with open(path, "wb", buffering=1 << 20) as file:
        file.write(HEADER)
        for n in range(frames):
            seconds, fraction = divmod(100_000 + 1_344 * n, 1_000_000_000)
            file.write(struct.pack("<IIII", seconds, fraction, len(body), len(body)) + body)


def write_inputs(folder, bridges, is_ring, frames):
    """Makes a folder of captures for each bridge: the stream's at the first one, all others empty."""
    for b, (source, _, ports) in enumerate(ways(bridges, is_ring)):
        os.makedirs(os.path.join(folder, "in", f"b{b}"))
        for q in range(1, ports + 1):
            path = os.path.join(folder, "in", f"b{b}", f"{q}.pcap")
            write_capture(path, frames if b == 0 and q == source else 0)


def timed(words):
    """The seconds and the processor's seconds of a call of the program, and its peak memory in MiB."""
    start = time.perf_counter()
    child = subprocess.Popen([PROGRAM, *words], stdout=subprocess.DEVNULL)
    _, status, usage = os.wait4(child.pid, 0)
    if status != 0:
        sys.exit(f"{' '.join(words)}: status {status}")
    return time.perf_counter() - start, usage.ru_utime + usage.ru_stime, usage.ru_maxrss / 1024


def counted(words):
    """The instructions of a call of the program, in thousand millions, in place of both times, and no memory."""
    count = instructions.count(PROGRAM, words) / 1e9
    return count, count, 0.0


def run_single(folder, bridges, is_ring, has_tables, cost):
    """Runs bridge after bridge over files, each once without frames, as the first round does, and then over what comes; then
    with its tables, where these are wanted."""
    wall, processor, peak = 0.0, 0.0, 0.0
    for b, (source, target, _) in enumerate(ways(bridges, is_ring)):
        came, left = os.path.join(folder, "in", f"b{b}"), os.path.join(folder, "single", f"b{b}")
        os.makedirs(left)
        calls = 1 if b == 0 else 2
        for n in range(calls):
            if b > 0 and n == 1:
                shutil.copy(os.path.join(folder, "single", f"b{b - 1}", "2.pcap"), os.path.join(came, f"{source}.pcap"))
            tables = ["--delays", os.path.join(left, "delays.csv"), "--frames", os.path.join(left, "frames.csv")]
            more = cost(["run", os.path.join(folder, f"b{b}.toml"), came, left] + tables * (has_tables and n == calls - 1))
            wall, processor, peak = wall + more[0], processor + more[1], max(peak, more[2])
    return wall, processor, peak


def are_same(folder, bridges, is_ring):
    """Whether both have written the same captures and reports."""
    names = [
        os.path.join(f"b{b}", name)
        for b, (_, _, ports) in enumerate(ways(bridges, is_ring))
        for name in [f"{q}.pcap" for q in range(1, ports + 1)] + ["report.txt"]
    ]
    return all(filecmp.cmp(os.path.join(folder, "out", n), os.path.join(folder, "single", n), shallow=False) for n in names)


def measure(bridges, frames, is_ring, has_tables, cost):
    """Prints the row of a network."""
    folder = tempfile.mkdtemp()
    try:
        write_plans(folder, bridges, is_ring)
        write_inputs(folder, bridges, is_ring, frames)
        os.mkdir(os.path.join(folder, "out"))
        net = cost(["net", os.path.join(folder, "network.toml"), os.path.join(folder, "in"), os.path.join(folder, "out")])
        single = run_single(folder, bridges, is_ring, has_tables, cost)
        same = "the same" if are_same(folder, bridges, is_ring) else "DIFFERENT"
        shape = "ring" if is_ring else "row"
        print(
            f"| {shape} of {bridges}, {frames} frames | {net[0]:.2f} | {net[1]:.2f} | {net[2]:.0f} "
            f"| {single[0]:.2f} | {single[1]:.2f} | {single[2]:.0f} | {net[1] / single[1]:.2f} | {same} |",
            flush=True,
        )
    finally:
        shutil.rmtree(folder)


def main():
    """Measures both networks."""
    words = [it for it in sys.argv[1:] if not it.startswith("--")]
    has_tables = "--tables" in sys.argv
    cost = counted if "--instructions" in sys.argv else timed
    bridges, frames = (int(words[0]), int(words[1])) if len(words) > 1 else (16, 1_000_000)
    print("| network | `net` s | processor s | peak MiB | single runs s | processor s | peak MiB | ratio | captures |")
    print("|---|---|---|---|---|---|---|---|---|", flush=True)
    measure(bridges, frames, False, has_tables, cost)
    measure(bridges, frames, True, has_tables, cost)


if __name__ == "__main__":
    main()
