#!/usr/bin/env python3
"""Makes the captures of the examples: captures.py

Each of the folders vehicle, cell, aircraft and change beside this file gets two folders with a capture for each port:
`normal`, in which all talkers keep to the plan, and `babbling`, in which one of them sends at the rate of its link, under the
addresses of other streams, and with any priority; all others send the same frames as in `normal` (in `change` it sends to the
address of the stream, around a change of schedules and in a window of the stream). The merge gate gets the same plans and
captures in `crates/gate_session/data`. `line` gets what comes to each of its two bridges, but for the port of the second
that the first one feeds. The seed is fixed, so the same files come out each time.

The files are little-endian and count nanoseconds. A record's moment is that at which the whole frame has come, and only the
first octets of each frame are captured: its addresses, its tag and its EtherType.

`zone` gets three folders: `normal`, `outside` (a device outside the group babbles) and `members` (two members of the group babble).

`network` gets what comes to the open ports of its three bridges. `crates/gate_session/data` gets both networks with their
captures, and for each open port of `network` a capture in which a talker babbles there beside what comes on it anyway.
"""
import os
import random
import shutil
import struct

TOP = os.path.dirname(os.path.abspath(__file__))
GATE = os.path.join(os.path.dirname(TOP), "crates", "gate_session", "data")
SEED = 20260801
GAP = 12


def address(text):
    """The six octets of an address."""
    return bytes.fromhex(text.replace("-", ""))


class Port:
    """What comes on a port, over a link of so many Mb/s that carries one frame after the other."""

    def __init__(self, mbps):
        self.mbps = mbps
        self.wanted = []

    def occupied(self, length):
        """How long a frame occupies the link, in ns, rounded up."""
        return -(-(max(length, 60) + 24) * 8000 // self.mbps)

    def gap(self):
        """How long the gap behind a frame lasts, in ns, rounded up."""
        return -(-GAP * 8000 // self.mbps)

    def send(self, moment, octets, length):
        """Has a frame of so many octets sent so that it has come at this moment, or as soon after as the link is free."""
        self.wanted.append((moment, len(self.wanted), octets, length))

    def records(self):
        """The records in order: each moment is that of the frame's last octet, and a gap follows it."""
        free = 0
        for moment, _, octets, length in sorted(self.wanted):
            came = max(moment, free + self.occupied(length) - self.gap())
            free = came + self.gap()
            seconds, fraction = divmod(came, 1_000_000_000)
            yield struct.pack("<IIII", seconds, fraction, len(octets), length) + octets

    def write(self, path):
        """Makes the capture."""
        with open(path, "wb") as file:
            file.write(struct.pack("<IHHIIII", 0xA1B23C4D, 2, 4, 0, 0, 65535, 1))
            file.writelines(self.records())


def tagged(to, source, vid, priority, eligible=0):
    """The front of a tagged frame."""
    return address(to) + address(source) + struct.pack(">HHH", 0x8100, priority << 13 | eligible << 12 | vid, 0x88B5)


def plain(to, source):
    """The front of an IPv4 frame without a tag."""
    return address(to) + address(source) + b"\x08\x00"


def cyclic(chance, port, cycles, cycle, first, last, octets, length, times=1, apart=0):
    """So many frames in each cycle, the first of them at some moment between the two, the others behind it."""
    for n in range(cycles):
        moment = n * cycle + chance.randint(first, last)
        for k in range(times):
            port.send(moment + k * apart, octets, length)


def now_and_then(chance, port, end, pause, fronts, lengths):
    """Frames of some front and length, up to the end, with some pause between them."""
    moment = chance.randint(0, pause)
    while moment < end:
        port.send(moment, chance.choice(fronts), chance.choice(lengths))
        moment += chance.randint(pause // 2, 2 * pause)


def babble(chance, port, end, front, lengths):
    """Frames one after the other, as fast as the link carries them beside what comes on it anyway, up to the end."""
    own = sorted((moment - port.occupied(length), moment) for moment, _, _, length in port.wanted)
    free = 0
    while free < end:
        length = chance.choice(lengths)
        if own and free + port.occupied(length) > own[0][0]:
            free = own.pop(0)[1] + port.gap()
        else:
            free += port.occupied(length)
            port.send(free - port.gap(), front(), length)


def vehicle(babbling):
    """Four cycles of the zonal gateway; it is the head unit that babbles."""
    chance = random.Random(SEED)
    cycles, cycle = 4, 1_000_000
    ports = {1: Port(100), 2: Port(100), 3: Port(1000), 4: Port(1000), 5: Port(1000)}
    brake, steering, camera = "02-00-00-00-00-01", "02-00-00-00-00-02", "02-00-00-00-00-03"
    computer, head = "02-00-00-00-00-04", "02-00-00-00-00-05"
    cyclic(chance, ports[1], cycles, cycle, 20_000, 60_000, tagged("91-E0-F0-00-FE-10", brake, 10, 7), 100)
    cyclic(chance, ports[2], cycles, cycle, 120_000, 160_000, tagged("91-E0-F0-00-FE-11", steering, 10, 6), 100)
    cyclic(chance, ports[3], cycles, cycle, 210_000, 250_000, tagged("91-E0-F0-00-FE-30", camera, 20, 5), 1300, 8, 20_000)
    cyclic(chance, ports[4], cycles, cycle, 520_000, 540_000, tagged("91-E0-F0-00-FE-20", computer, 10, 7), 80)
    cyclic(chance, ports[4], cycles, cycle, 550_000, 570_000, tagged("91-E0-F0-00-FE-21", computer, 10, 7), 80)
    now_and_then(chance, ports[4], cycles * cycle, 300_000, [tagged(head, computer, 10, 0)], [60, 500, 1514])
    if not babbling:
        now_and_then(chance, ports[5], cycles * cycle, 300_000, [tagged(computer, head, 10, 0)], [60, 500, 1000])
        return ports
    streams = [(f"91-E0-F0-00-FE-{n}", 20 if n == 30 else 10) for n in (10, 11, 20, 21, 30)]

    def forged():
        to, vid = chance.choice(streams)
        return tagged(to, chance.choice([head, computer, brake]), vid, chance.randint(4, 7), chance.randint(0, 1))

    babble(chance, ports[5], cycles * cycle, forged, [60, 500, 1514])
    return ports


def cell(babbling):
    """Six cycles of the cell; it is the vision system that babbles, beside its own frames."""
    chance = random.Random(SEED)
    cycles, cycle = 6, 500_000
    ports = {1: Port(1000), 2: Port(100), 3: Port(100), 4: Port(1000), 5: Port(1000)}
    controller, first, second = "02-00-00-00-01-01", "02-00-00-00-01-02", "02-00-00-00-01-03"
    vision, panel = "02-00-00-00-01-04", "02-00-00-00-01-05"
    cyclic(chance, ports[1], cycles, cycle, 20_000, 40_000, tagged(first, controller, 100, 7), 200)
    cyclic(chance, ports[1], cycles, cycle, 45_000, 65_000, tagged(second, controller, 100, 7), 200)
    cyclic(chance, ports[2], cycles, cycle, 160_000, 190_000, tagged("91-E0-F0-00-FE-20", first, 100, 7), 200)
    cyclic(chance, ports[3], cycles, cycle, 160_000, 190_000, tagged("91-E0-F0-00-FE-21", second, 100, 7), 200)
    now_and_then(chance, ports[5], cycles * cycle, 400_000, [tagged(controller, panel, 100, 1)], [60, 300])
    now_and_then(chance, ports[1], cycles * cycle, 400_000, [tagged(panel, controller, 100, 1)], [60, 900])
    position = tagged("91-E0-F0-00-FE-30", vision, 100, 5)
    picture = tagged("91-E0-F0-00-FE-40", vision, 100, 2)
    cyclic(chance, ports[4], cycles, cycle, 260_000, 280_000, position, 80)
    if not babbling:
        cyclic(chance, ports[4], cycles // 2, 2 * cycle, 300_000, 400_000, picture, 1514, 12, 13_000)
        return ports
    others = [first, second, "91-E0-F0-00-FE-20", "91-E0-F0-00-FE-21", controller]

    def forged():
        to, source = chance.choice(others), chance.choice([vision, controller, first])
        front = tagged(to, source, 100, chance.randint(4, 7), chance.randint(0, 1))
        return chance.choice([picture, front])

    babble(chance, ports[4], cycles * cycle, forged, [60, 500, 1514])
    return ports


def link(chance, port, end, gap, late, octets, length):
    """The frames of a virtual link: one in each gap, up to so much later than it should."""
    first = chance.randint(0, gap)
    for n in range(-(-(end - first) // gap)):
        port.send(first + n * gap + chance.randint(0, late), octets, length)


def aircraft(babbling):
    """16 ms of the aircraft's switch; it is the maintenance terminal that babbles, with and without a tag."""
    chance = random.Random(SEED)
    end, late = 16_000_000, 500_000
    ports = {number: Port(100) for number in range(1, 6)}
    links = [(2, 101, 2, 128), (3, 102, 4, 256), (1, 103, 2, 96), (1, 104, 4, 200)]
    for number, name, gap, longest in links:
        front = plain(f"03-00-00-00-00-{name:02X}", f"02-00-00-00-02-{number:02}")
        link(chance, ports[number], end, gap * 1_000_000, late, front, longest - 4)
    own = plain("03-00-00-00-00-C9", "02-00-00-00-02-05")
    if not babbling:
        link(chance, ports[5], end, 8_000_000, late, own, 1514)
        return ports

    def forged():
        name = chance.choice([101, 102, 103, 104, 201])
        front = tagged(f"03-00-00-00-00-{name:02X}", "02-00-00-00-02-05", 0, chance.randint(4, 7))
        return chance.choice([own, front])

    babble(chance, ports[5], end, forged, [60, 500, 1514])
    return ports


def line():
    """Eight cycles of what comes to two bridges in a row, but for the frames that the first sends to the second."""
    chance = random.Random(SEED)
    cycles, cycle = 8, 250_000
    first = {1: Port(1000), 2: Port(1000), 3: Port(100), 4: Port(1000)}
    second = {2: Port(1000), 3: Port(100), 4: Port(1000)}
    talkers = {number: f"02-00-00-00-03-{number:02}" for number in first}
    others = ["02-00-00-00-03-12", "02-00-00-00-03-13"]
    cyclic(chance, first[1], cycles, cycle, 5_000, 15_000, tagged("91-E0-F0-00-FE-10", talkers[1], 10, 7), 100)
    cyclic(chance, first[2], cycles, cycle, 45_000, 55_000, tagged("91-E0-F0-00-FE-11", talkers[2], 10, 6), 300)
    cyclic(chance, first[3], cycles, cycle, 0, 240_000, tagged("91-E0-F0-00-FE-12", talkers[3], 10, 5), 200)
    fronts = [tagged(to, talkers[1], 10, 7) for to in others]
    now_and_then(chance, first[1], cycles * cycle, 40_000, fronts, [60, 500, 1514])
    fronts = [tagged(to, "02-00-00-00-03-14", 10, 7) for to in others]
    now_and_then(chance, second[4], cycles * cycle, 40_000, fronts, [60, 500, 1514])
    return first, second


def zones(babbling):
    """Eight cycles of what comes to the open ports of three zones in a ring; one of them may be a port that babbles."""
    chance = random.Random(SEED)
    cycles, cycle = 8, 500_000
    all_ports = {(zone, number): Port(1000 if number == 1 else 100) for zone in "abc" for number in (1, 4)}
    talkers = {(zone, number): f"02-00-00-00-04-{'abc'.index(zone) + 1}{number}" for zone, number in all_ports}
    own = {("a", 1): (10, 7, 120, 10_000), ("b", 1): (11, 6, 240, 110_000), ("c", 4): (12, 5, 380, 20_000)}
    for place, (number, priority, length, moment) in own.items():
        front = tagged(f"91-E0-F0-00-FE-{number}", talkers[place], number, priority)
        cyclic(chance, all_ports[place], cycles, cycle, moment, moment + 20_000, front, length)
    for place in (("a", 4), ("b", 4), ("c", 1)):
        fronts = [plain(to, talkers[place]) for other, to in talkers.items() if other != place]
        now_and_then(chance, all_ports[place], cycles * cycle, 200_000, fronts, [60, 500, 1514])
    if babbling is not None:
        streams = [n for n in (10, 11, 12) if own.get(babbling, (0,))[0] != n]

        def forged():
            number = chance.choice(streams)
            to = f"91-E0-F0-00-FE-{number}"
            front = tagged(to, talkers[babbling], chance.choice([1, number]), chance.randint(0, 7), chance.randint(0, 1))
            return chance.choice([front, plain(to, talkers[babbling])])

        babble(chance, all_ports[babbling], cycles * cycle, forged, [60, 500, 1514])
    return all_ports


def networks():
    """Makes the captures of the two networks, and gives them and their plans to the merge gate."""
    first, second = line()
    all_ports = zones(None)
    for top in (TOP, GATE):
        write(os.path.join(top, "line", "first"), first)
        write(os.path.join(top, "line", "second"), second)
        for zone in "abc":
            ports = {number: port for (place, number), port in all_ports.items() if place == zone}
            write(os.path.join(top, "network", zone), ports)
    for name, files in (("line", ("first", "second", "network")), ("network", ("zone_a", "zone_b", "zone_c", "network"))):
        for file in files:
            shutil.copyfile(os.path.join(TOP, name, f"{file}.toml"), os.path.join(GATE, name, f"{file}.toml"))
    os.makedirs(os.path.join(GATE, "babbling"), exist_ok=True)
    for zone, number in all_ports:
        zones((zone, number))[(zone, number)].write(os.path.join(GATE, "babbling", f"{zone}.{number}.pcap"))


def change(babbling):
    """Three frames of a stream on port 1, and on port 2 one frame, or a talker that babbles, as lists are exchanged."""
    ports = {number: Port(1000) for number in (1, 2, 3)}
    to = "02-00-00-00-00-0A"
    for moment in (1_100_000, 2_100_000, 2_600_000):
        ports[1].send(moment, tagged(to, "02-00-00-00-00-01", 10, 0), 60)
    front = tagged(to, "02-00-00-00-00-02", 10, 7)
    if babbling:
        for moment in [1_950_000] * 150 + [2_480_000] * 200:
            ports[2].send(moment, front, 60)
    else:
        ports[2].send(1_999_329, front, 60)
    return ports


def zone(babbling):
    """4 ms of the zone controller. `babbling` is None, "outside" (telematics) or "members" (a radar and a lidar)."""
    chance = random.Random(SEED)
    end = 4_000_000
    ports = {1: Port(100), 2: Port(100), 3: Port(1000), 4: Port(100), 5: Port(1000), 6: Port(1000)}
    kinds = [(11, 18, 10_000_000, 272), (21, 26, 20_000_000, 1016), (31, 36, 1_000_000, 80)]
    fronts = {}
    for first, last, period, length in kinds:
        for number in range(first, last + 1):
            port = 1 if number < 15 else 2 if number < 19 else 3 if number < 27 else 4
            fronts[number] = tagged(f"91-E0-F0-00-FE-{number}", f"02-00-00-00-05-{number}", 10, 6)
            moment = chance.randint(0, min(period, end) - 1)
            while moment < end:
                ports[port].send(moment, fronts[number], length)
                moment += period
    telematics = "02-00-00-00-05-99"
    if babbling != "outside":
        now_and_then(chance, ports[6], end, 200_000, [tagged("02-00-00-00-05-01", telematics, 10, 0)], [60, 500, 1514])

    def forged():
        return tagged(f"91-E0-F0-00-FE-{chance.choice(sorted(fronts))}", telematics, 10, chance.randint(4, 7))

    if babbling == "outside":
        babble(chance, ports[6], end, forged, [60, 500, 1514])
    if babbling == "members":
        babble(chance, ports[1], end, lambda: fronts[12], [60])
        babble(chance, ports[3], end, lambda: fronts[23], [60, 500, 1016])
    return ports


def write(folder, ports):
    """Makes the captures of the ports in a folder."""
    os.makedirs(folder, exist_ok=True)
    for number, port in ports.items():
        port.write(os.path.join(folder, f"{number}.pcap"))


def main():
    """Makes all captures, and gives the merge gate its plans."""
    for name, example in (("vehicle", vehicle), ("cell", cell), ("aircraft", aircraft), ("change", change)):
        for top in (TOP, GATE):
            write(os.path.join(top, name, "normal"), example(False))
            write(os.path.join(top, name, "babbling"), example(True))
        shutil.copyfile(os.path.join(TOP, name, "plan.toml"), os.path.join(GATE, name, "plan.toml"))
    for name, babbling in (("normal", None), ("outside", "outside"), ("members", "members")):
        write(os.path.join(TOP, "zone", name), zone(babbling))
    networks()


main()
