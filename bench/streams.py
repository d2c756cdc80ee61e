#!/usr/bin/env python3
"""Times `tsnbridge net` of a ring with many streams beside single runs: streams.py [FRAMES]

The network of planning.py: 64 bridges and 1,000 streams, each over five bridges. Each stream sends FRAMES frames (2,000 by
default) of 64 octets, one in each cycle of 160,000 ns, so there are 5,000 x FRAMES frame hops. Beside it `run` runs each bridge
once with its tables, over what `net` delivered to it. The links have no delay, so both have to write the same captures and
reports. The script prints the times and the peak memory. All files go into a new folder, which is removed at the end.
"""
import filecmp
import os
import shutil
import struct
import sys
import tempfile

import planning
from networks import HEADER, timed

BRIDGES, STREAMS, ENTRIES, CYCLE = 64, 1000, 4096, 160_000


def frame_of(stream):
    """The octets of a frame of a stream: address, source, VLAN tag, type and 46 octets."""
    address = bytes.fromhex(planning.address_of(stream).replace("-", ""))
    return address + bytes.fromhex("0200000000018100") + struct.pack(">H", 0xE000 | stream + 2) + bytes.fromhex("88b5") + bytes(46)


def write_talkers(path, streams, frames):
    """Makes the capture of the talkers of a bridge: each of its streams sends one frame in each cycle."""
    bodies = [frame_of(stream) for stream in streams]
    with open(path, "wb", buffering=1 << 20) as file:
        file.write(HEADER)
        for n in range(frames):
            for place, body in enumerate(bodies):
                seconds, fraction = divmod(100_000 + CYCLE * n + 2_000 * place, 1_000_000_000)
                file.write(struct.pack("<IIII", seconds, fraction, len(body), len(body)) + body)


def write_inputs(folder, frames):
    """Makes a folder of captures for each bridge. The captures of linked ports are empty."""
    for b in range(BRIDGES):
        came = os.path.join(folder, "in", f"b{b}")
        os.makedirs(came)
        for q in range(1, 17):
            streams = range(b, STREAMS, BRIDGES) if q == planning.TALKERS else []
            write_talkers(os.path.join(came, f"{q}.pcap"), streams, frames)


def link_inputs(folder):
    """Puts the captures that `net` sent over each link into the folders of the receiving bridges."""
    for b in range(BRIDGES):
        after = (b + 1) % BRIDGES
        for lane in range(planning.LANES):
            for sender, port, receiver, target in [(b, 1 + lane, after, 7 + lane), (after, 7 + lane, b, 1 + lane)]:
                path = os.path.join(folder, "in", f"b{receiver}", f"{target}.pcap")
                os.remove(path)
                os.link(os.path.join(folder, "out", f"b{sender}", f"{port}.pcap"), path)


def run_single(folder):
    """Runs each bridge once with its tables. Returns the times, the peak memory, and whether all outputs are the same."""
    wall, processor, peak, same = 0.0, 0.0, 0.0, True
    for b in range(BRIDGES):
        left = os.path.join(folder, "single", f"b{b}")
        os.makedirs(left)
        tables = ["--delays", os.path.join(left, "delays.csv"), "--frames", os.path.join(left, "frames.csv")]
        more = timed(["run", os.path.join(folder, f"b{b}.toml"), os.path.join(folder, "in", f"b{b}"), left] + tables)
        wall, processor, peak = wall + more[0], processor + more[1], max(peak, more[2])
        for name in [f"{q}.pcap" for q in range(1, 17)] + ["report.txt"]:
            same = same and filecmp.cmp(os.path.join(folder, "out", f"b{b}", name), os.path.join(left, name), shallow=False)
    return wall, processor, peak, same


def main():
    """Measures once, and prints a row."""
    frames = int(sys.argv[1]) if len(sys.argv) > 1 else 2_000
    folder = tempfile.mkdtemp()
    try:
        planning.write_network(folder, BRIDGES, STREAMS, ENTRIES)
        write_inputs(folder, frames)
        os.mkdir(os.path.join(folder, "out"))
        net = timed(["net", os.path.join(folder, "network.toml"), os.path.join(folder, "in"), os.path.join(folder, "out")])
        link_inputs(folder)
        single = run_single(folder)
        hops = planning.HOPS * STREAMS * frames
        print("| frame hops | `net` s | processor s | peak MiB | octets per hop | single runs s | processor s | peak MiB | ratio | outputs |")
        print("|---|---|---|---|---|---|---|---|---|---|")
        print(
            f"| {hops} | {net[0]:.1f} | {net[1]:.1f} | {net[2]:.0f} | {net[2] * 1048576 / hops:.0f} "
            f"| {single[0]:.1f} | {single[1]:.1f} | {single[2]:.0f} | {net[1] / single[1]:.2f} | {'the same' if single[3] else 'DIFFERENT'} |"
        )
    finally:
        shutil.rmtree(folder)


if __name__ == "__main__":
    main()
