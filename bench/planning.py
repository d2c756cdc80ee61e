#!/usr/bin/env python3
"""Times `tsnbridge net check` of a large network: planning.py [BRIDGES STREAMS ENTRIES] [--talkers] [--late COUNT]

A ring of so many bridges (64 by default), each with six links to the next one, and so many streams (1,000 by default), half
of which go forward and half backward over five bridges, each with a VLAN of its own; each plan has so many streams (4,096 by
default) in all. With --talkers, each stream has a periodic talker. With --late, also COUNT of the streams miss their deadlines,
and the program explains how to meet them (`--explain`). The script prints the time, the processor's time, the peak memory, and
what the program says. All files go into a new folder, which is removed at the end.
"""
import argparse
import os
import shutil
import subprocess
import sys
import tempfile
import time

TOP = os.path.dirname(os.path.dirname(os.path.abspath(__file__)))
BUILT = os.path.join(TOP, "crates", "tsnbridge", "out", "tsnbridge")
PROGRAM = BUILT if os.path.exists(BUILT) else os.path.join(TOP, "release", "tsnbridge")
HOPS = 5
LANES = 6
TALKERS = 16
LISTENERS = 13
# A periodic talker, and deadlines in ns: no stream of the ring misses the first one, and none meets the second one.
TALKER = "period = 1600000\nfrom = 5000\nto = 6000\nleast = 60\nlongest = 100\n"
MET, MISSED = 10_000_000, 120_000


def address_of(stream):
    """The address of a stream."""
    return f"91-E0-F0-01-{stream >> 8:02X}-{stream & 255:02X}"


def lane_of(slot):
    """The lane and the class of the queue in a slot: seven classes a port."""
    return slot // 7, slot % 7 + 1


def way_of(stream, bridges):
    """Of each hop of a stream its bridge, the port where it comes in, the one where it leaves, and the class there."""
    start, row = stream % bridges, stream // bridges
    rows = -(-STREAMS // bridges)
    is_forward = row < (rows + 1) // 2
    place = row if is_forward else row - (rows + 1) // 2
    each = (rows + 1) // 2
    way, source = [], TALKERS
    for hop in range(HOPS):
        bridge = (start + hop if is_forward else start - hop) % bridges
        if hop < HOPS - 1:
            lane, number = lane_of(hop * each + place)
            if lane >= LANES:
                sys.exit("more streams than there are queues")
            target = 1 + lane if is_forward else 7 + lane
            way.append((bridge, source, target, number))
            source = 7 + lane if is_forward else 1 + lane
        else:
            lane, number = lane_of(row)
            way.append((bridge, source, LISTENERS + lane, number))
    return way


def port_of(number):
    """A port whose classes 1 to 7 have a window each."""
    rows = "".join(f"  {{ open = [{c}], ns = 20000 }},\n" for c in range(1, 8))
    return f"[[port]]\nnumber = {number}\nmbps = 1000\ncycle = 160000\ngates = [\n{rows}  {{ open = [0], ns = 20000 }},\n]\n\n"


def hop_text(stream, source, target, number):
    """What the plan of a bridge says of a hop of a stream."""
    handle, vid, address = stream + 10, stream + 2, address_of(stream)
    return (
        f"[[vlan]]\nvid = {vid}\nmembers = [{source}, {target}]\n\n"
        f'[[static]]\nvid = {vid}\naddress = "{address}"\nports = [{target}]\n\n'
        f'[[stream]]\nhandle = {handle}\nport = {source}\nkind = "null"\naddress = "{address}"\nvid = {vid}\ntag = "tagged"\n\n'
        f'[[gate]]\nnumber = {handle}\nstate = "open"\nipv = {number}\n\n'
        f"[[filter]]\nnumber = {handle}\nhandle = {handle}\ngate = {handle}\nmax_sdu = 128\nprotected = true\n\n"
    )


def other_text(count):
    """So many streams of a plan that are of no hop, and the filter that takes all other frames."""
    rows = "".join(
        f'[[stream]]\nhandle = 9\nport = {n % 16 + 1}\nkind = "null"\naddress = "91-E0-F0-02-{n >> 8:02X}-{n & 255:02X}"\nvid = 4000\ntag = "tagged"\n\n'
        for n in range(count)
    )
    return rows + '[[gate]]\nnumber = 5000\nstate = "open"\nipv = 0\n\n[[filter]]\nnumber = 5000\ngate = 5000\n'


def talker_text(stream, talkers, late):
    """The talker of a stream and its deadline, if the streams have talkers. The first `late` streams miss their deadlines."""
    return f"{TALKER}deadline = {MISSED if stream < late else MET}\n" if talkers else ""


def write_network(folder, bridges, streams, entries, talkers=False, late=0):
    """Makes the plans and the file of the network, and answers how many octets the plans have."""
    hops, lines = [[] for _ in range(bridges)], ""
    for stream in range(streams):
        way = way_of(stream, bridges)
        for bridge, source, target, number in way:
            hops[bridge].append(hop_text(stream, source, target, number))
        names = ", ".join(f'"b{bridge}.{stream + 10}"' for bridge, _, _, _ in way)
        lines += f'[[stream]]\nname = "s{stream}"\nhops = [{names}]\n{talker_text(stream, talkers, late)}\n'
    octets = 0
    for bridge in range(bridges):
        text = "".join(port_of(q) for q in range(1, 17)) + "".join(hops[bridge]) + other_text(entries - len(hops[bridge]))
        octets += len(text)
        with open(os.path.join(folder, f"b{bridge}.toml"), "w", encoding="ascii") as file:
            file.write(text)
    text = "".join(f'[[bridge]]\nname = "b{b}"\nplan = "b{b}.toml"\n\n' for b in range(bridges))
    for b in range(bridges):
        text += "".join(f'[[link]]\none = "b{b}.{1 + n}"\nother = "b{(b + 1) % bridges}.{7 + n}"\n\n' for n in range(LANES))
    with open(os.path.join(folder, "network.toml"), "w", encoding="ascii") as file:
        file.write(text + lines)
    return octets


def main():
    """Measures five times, and prints the least."""
    folder = tempfile.mkdtemp()
    try:
        octets = write_network(folder, BRIDGES, STREAMS, ENTRIES, HAS_TALKERS, LATE)
        words = [PROGRAM, "net", "check", os.path.join(folder, "network.toml"), *(["--explain"] if LATE else [])]
        best = None
        for _ in range(5):
            start = time.perf_counter()
            child = subprocess.Popen(words, stdout=subprocess.PIPE, stderr=subprocess.DEVNULL)
            said = child.stdout.readline().decode().strip()
            child.stdout.read()
            _, status, usage = os.wait4(child.pid, 0)
            row = (usage.ru_utime + usage.ru_stime, time.perf_counter() - start, usage.ru_maxrss / 1024)
            best = row if best is None or row < best else best
        print(f"{said or 'refused'} (status {status}), plans of {octets} octets: {best[1]:.2f} s, {best[0]:.2f} s of a processor, {best[2]:.0f} MiB")
    finally:
        shutil.rmtree(folder)


def options():
    """The options of the command line."""
    parser = argparse.ArgumentParser()
    parser.add_argument("sizes", nargs="*", type=int)
    parser.add_argument("--talkers", action="store_true")
    parser.add_argument("--late", type=int, default=0)
    return parser.parse_args()


OPTIONS = options()
BRIDGES, STREAMS, ENTRIES = OPTIONS.sizes if len(OPTIONS.sizes) == 3 else (64, 1000, 4096)
LATE = OPTIONS.late
HAS_TALKERS = OPTIONS.talkers or LATE > 0

if __name__ == "__main__":
    main()
