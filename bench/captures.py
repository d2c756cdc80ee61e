#!/usr/bin/env python3
"""Writes captures to measure with: captures.py FILE FRAMES KIND, or captures.py FOLDER PORTS FRAMES KIND [FLOWS [ENTRIES]]

KIND is `64` (each frame has 64 octets) or `mixed` (of twelve frames seven have 64 octets, four 570 and one 1514).
Frames are tagged, and come at 1,000 Mb/s as fast as such a link carries them, so none waits long and none is refused.
With PORTS (2 to 16) the folder gets a plan and a capture of so many frames for each port: those of port 1 go to port 2,
and so on, through FLOWS (1 by default) filters in turn, each with a gate and a meter of its own and, where there are more
than one, with four streams. With ENTRIES (2 to 256) each port has a gate control list of so many, which open all classes
and all but class 0 in turn. The files are little-endian and count nanoseconds. The same words give the same octets.
"""
import os
import struct
import sys

SIZES = {"64": [64], "mixed": [64, 570, 64, 64, 570, 64, 1514, 64, 570, 64, 570, 64]}
LINK = 1_000_000_000
ANY = '\n[[gate]]\nnumber = 5000\nstate = "open"\n\n[[filter]]\nnumber = 5000\ngate = 5000\n'
STREAMS = 4


def address_of(receiver, stream=0):
    """The address of a stream to a receiver."""
    return bytes([2, 0, 0, stream // 256, stream % 256, receiver])


def head(address):
    """The addresses, the tag (priority 0, VLAN 10) and the type of a frame to an address."""
    return address + bytes.fromhex("0200000000018100000a88b5")


def frames(count, sizes, heads):
    """The records of so many frames, to the addresses in turn."""
    time = 100_000
    bodies = {size: bytes((31 * i) % 256 for i in range(size - len(heads[0]))) for size in sizes}
    for n in range(count):
        size = sizes[n % len(sizes)]
        seconds, fraction = divmod(time, 1_000_000_000)
        yield struct.pack("<IIII", seconds, fraction, size, size) + heads[n % len(heads)] + bodies[size]
        time += (max(size, 60) + 24) * 8 * 1_000_000_000 // LINK


def write(path, count, kind, receiver=10, streams=1):
    """Makes a capture."""
    heads = [head(address_of(receiver, stream)) for stream in range(streams)]
    with open(path, "wb", buffering=1 << 20) as file:
        file.write(struct.pack("<IHHIIII", 0xA1B23C4D, 2, 4, 0, 0, 65535, 1))
        for octets in frames(count, SIZES[kind], heads):
            file.write(octets)


def stream_of(port, ports, flow, stream):
    """What the plan has for a stream that comes on a port."""
    address = address_of(port % ports + 1, stream).hex("-").upper()
    return (
        f'\n[[static]]\nvid = 10\naddress = "{address}"\nports = [{port % ports + 1}]\n'
        f'\n[[stream]]\nhandle = {flow}\nport = {port}\nkind = "null"\naddress = "{address}"\nvid = 10\ntag = "tagged"\n'
    )


def flow_of(flow):
    """The gate, the meter and the filter of a flow."""
    return (
        f'\n[[gate]]\nnumber = {flow}\nstate = "open"\nipv = 7\n'
        f"\n[[meter]]\nnumber = {flow}\ncir = 2000000000\ncbs = 100000\neir = 0\nebs = 0\n"
        f"\n[[filter]]\nnumber = {flow}\nhandle = {flow}\ngate = {flow}\nmeter = {flow}\nmax_sdu = 1500\n"
    )


def section_of(port, ports, flows, each):
    """What the plan has for the frames that come on a port: its flows, each with so many streams."""
    numbers = [(port - 1) * flows + place + 1 for place in range(flows)]
    streams = [stream_of(port, ports, numbers[stream % flows], stream) for stream in range(flows * each)]
    return "".join(streams) + "".join(flow_of(number) for number in numbers)


def list_of(entries):
    """A gate control list of so many entries, 3,900 ns each, or none."""
    if not entries:
        return ""
    states = ["[0, 1, 2, 3, 4, 5, 6, 7]", "[1, 2, 3, 4, 5, 6, 7]"]
    gates = ", ".join(f"{{ open = {states[place % 2]}, ns = 3900 }}" for place in range(entries))
    return f"cycle = {3900 * entries}\ngates = [{gates}]\n"


def write_all(folder, ports, count, kind, flows=1, entries=0):
    """Makes a plan and a capture for each port."""
    os.makedirs(os.path.join(folder, "in"), exist_ok=True)
    numbers = range(1, ports + 1)
    each = 1 if flows == 1 else STREAMS
    with open(os.path.join(folder, "plan.toml"), "w") as plan:
        for port in numbers:
            plan.write(f"[[port]]\nnumber = {port}\nmbps = 1000\n{list_of(entries)}\n")
        plan.write(f"[[vlan]]\nvid = 10\nmembers = {list(numbers)}\n")
        plan.write("".join(section_of(port, ports, flows, each) for port in numbers) + ANY)
    for port in numbers:
        write(os.path.join(folder, "in", f"{port}.pcap"), count, kind, port % ports + 1, flows * each)


def main():
    words = sys.argv[1:]
    if len(words) == 3 and words[1].isdigit() and words[2] in SIZES:
        write(words[0], int(words[1]), words[2])
    elif 4 <= len(words) <= 6 and all(word.isdigit() for word in words[1:3] + words[4:]) and 2 <= int(words[1]) <= 16 and words[3] in SIZES:
        write_all(words[0], int(words[1]), int(words[2]), words[3], *map(int, words[4:]))
    else:
        sys.exit(__doc__)


if __name__ == "__main__":
    main()
