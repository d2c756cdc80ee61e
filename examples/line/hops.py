#!/usr/bin/env python3
"""Prints the delays of the streams of two bridges in a row, hop by hop: hops.py ARRIVING FIRST SECOND

ARRIVING is the folder of the captures that came to the first bridge, FIRST and SECOND are the reports of the two bridges.
A hop's delay is from the moment at which a frame has come to a bridge, to that at which it has left it with its gap. Frame
n that left the first bridge is frame n of the same filter at the second. The greatest delay of each hop has to be that which
the bridge's own report says.
"""
import os
import struct
import sys

# The streams: number of the filter at both bridges, the first bridge's port, the stream's address, and its name.
STREAMS = [
    (10, 1, "91e0f000fe10", "position"),
    (11, 2, "91e0f000fe11", "torque"),
    (12, 3, "91e0f000fe12", "temperature"),
]


def arrivals(path, address):
    """The moments of the frames to an address in a little-endian capture of nanoseconds."""
    with open(path, "rb") as file:
        octets = file.read()
    at, moments = 24, []
    while at < len(octets):
        seconds, fraction, captured, _ = struct.unpack_from("<IIII", octets, at)
        if octets[at + 16 : at + 22].hex() == address:
            moments.append(seconds * 1_000_000_000 + fraction)
        at += 16 + captured
    return moments


def section(path, number):
    """Of a filter, when each of its frames was done, by its number among them, and the report's greatest delay."""
    done, delay, here = {}, None, False
    with open(path, encoding="ascii") as file:
        for line in file:
            words = line.split()
            if words[0] == "filter":
                here = int(words[1]) == number
            elif here and words[0] == "delay":
                delay = int(words[1])
            elif here and words[0] == "out":
                done[int(words[1])] = int(words[7])
    return done, delay


def span(delays):
    """The least and the greatest of some delays, in microseconds."""
    return f"{min(delays) / 1000:.3f} to {max(delays) / 1000:.3f}"


def main(arriving, first, second):
    """Prints the table."""
    print("| Stream | frames | first bridge, us | second bridge, us | both, us |\n|---|---|---|---|---|")
    for number, port, address, name in STREAMS:
        came = arrivals(os.path.join(arriving, f"{port}.pcap"), address)
        (left, one), (arrived, two) = section(first, number), section(second, number)
        order = sorted(left)
        hops = [(left[n] - came[n - 1], arrived[k] - left[n]) for k, n in enumerate(order, 1)]
        if len(arrived) != len(order) or max(a for a, _ in hops) != one or max(b for _, b in hops) != two:
            sys.exit(f"hops.py: the delays of {name} differ from the reports")
        columns = [span([a for a, _ in hops]), span([b for _, b in hops]), span([a + b for a, b in hops])]
        print(f"| {name} | {len(hops)} | " + " | ".join(columns) + " |")


main(*sys.argv[1:])
