#!/usr/bin/env python3
"""Looks for delays near the printed bounds: bounds.py [--groups | --apart] [PLANS TRIES SEED]

Makes random plans (20 by default), each with windows of class 7 at an egress port and a stream gate with octet limits in some
plans, asks `tsnbridge bounds` for `bound` and `padded`, and runs random captures of babbling talkers (60 by default for each
bound). With --groups, two to five streams without meters share class 7, and each stream gate has octet limits. With --apart, their
stream gates open one after the other, and for queues marked `apart` each stream's section of the report must be that of a run with only
this stream's frames. It prints a line for each plan, and the nearest delays at the end. The status is 1 if a delay exceeds its bound,
or if a section of an `apart` queue changed.
"""
import os
import random
import re
import struct
import subprocess
import sys
import tempfile

TOP = os.path.dirname(os.path.dirname(os.path.abspath(__file__)))
BUILT = os.path.join(TOP, "crates", "tsnbridge", "out", "tsnbridge")
PROGRAM = BUILT if os.path.exists(BUILT) else os.path.join(TOP, "release", "tsnbridge")
ADDRESS = bytes.fromhex("0200000000")
SOURCE = bytes.fromhex("020000000001")


class Plan:
    """A random plan: ports 1 and 2 receive, class 7 of port 3 has windows of its own, each stream's gate is open in some intervals."""

    def __init__(self, draw, grouped, in_turn):
        self.count = draw.randint(2, 5) if grouped else 1
        self.mbps = draw.choice([100, 1000])
        self.unit = 1000 if self.mbps == 1000 else 10_000
        self.room = draw.choice([8, 64, 200]) if grouped else draw.choice([1, 2, 4, 8])
        self.sdu = draw.choice([60, 200, 500])
        longest = -(-(self.sdu + 16 + 24) * 8000 // self.mbps)
        most = 40 if grouped else 4
        self.windows = [draw.randint(longest, longest * most) for _ in range(draw.randint(1, 3))]
        self.pauses = [draw.randint(1, 20) * self.unit for _ in self.windows]
        self.cycle = sum(self.windows) + sum(self.pauses)
        whole, parts = (2 * self.count * draw.randint(1, 3), 1) if in_turn else draw.choice([(1, 1), (2, 1), (3, 2), (1, 2)])
        if self.cycle % parts:
            self.pauses[0] += parts - self.cycle % parts
            self.cycle = sum(self.windows) + sum(self.pauses)
        self.gate_cycle = self.cycle // parts * whole
        self.limited = grouped or draw.random() < 0.6
        self.gates = [self.entry_in_turn(draw, it) if in_turn else self.gate_entries(draw) for it in range(self.count)]
        self.base = draw.randint(0, self.cycle - 1)

    def gate_entries(self, draw):
        """The intervals of the stream gate: (start, length, octets), open ones only; octets is None without a limit."""
        entries, at = [], draw.randint(0, self.gate_cycle // 3)
        for _ in range(draw.randint(1, 3)):
            length = draw.randint(1, max(1, self.gate_cycle // 8))
            if at + length >= self.gate_cycle:
                break
            octets = draw.choice([46, self.sdu, 2 * self.sdu][: 2 if self.count > 1 else 3]) if self.limited else None
            entries.append((at, length, octets))
            at += length + draw.randint(1, max(1, self.gate_cycle // 3))
        return entries or [(0, self.gate_cycle // 2, self.sdu if self.limited else None)]

    def entry_in_turn(self, draw, place):
        """One open interval in the stream's share of the gate's cycle."""
        share = self.gate_cycle // self.count
        length = draw.randint(1, max(1, share // 4))
        return [(place * share + draw.randint(0, share // 4), length, draw.choice([46, self.sdu, 2 * self.sdu]))]

    def text(self):
        """The plan as TOML."""
        ports = [f"[[port]]\nnumber = {n}\nmbps = {self.mbps}\n" for n in (1, 2)]
        gates = ", ".join(f"{{ open = [7], ns = {w} }}, {{ open = [0, 1, 2, 3, 4, 5, 6], ns = {p} }}" for w, p in zip(self.windows, self.pauses))
        rooms = ", ".join([str(self.room)] * 8)
        ports.append(f"[[port]]\nnumber = 3\nmbps = {self.mbps}\nrooms = [{rooms}]\ncycle = {self.cycle}\nbase = {self.base}\ngates = [{gates}]\n")
        streams = "".join(self.stream(place) for place in range(self.count))
        vlan = "[[vlan]]\nvid = 10\nmembers = [1, 2, 3]\n"
        return "".join(ports) + vlan + streams + '[[gate]]\nnumber = 99\nstate = "open"\nipv = 0\n[[filter]]\nnumber = 99\ngate = 99\n'

    def ingress(self, place):
        """The port at which the talker of a stream is."""
        return place % 2 + 1

    def stream(self, place):
        """The tables of a stream: its address, entry, gate and filter."""
        rows, at = [], 0
        for start, length, octets in self.gates[place]:
            if start > at:
                rows.append(f"{{ open = false, ns = {start - at} }}")
            limit = f", octets = {octets}" if octets else ""
            rows.append(f"{{ open = true, ns = {length}, ipv = 7{limit} }}")
            at = start + length
        if at < self.gate_cycle:
            rows.append(f"{{ open = false, ns = {self.gate_cycle - at} }}")
        address = f"02-00-00-00-00-{place + 10:02X}"
        kind = "group = 1" if self.count > 1 else "protected = true"
        return (
            f'[[static]]\nvid = 10\naddress = "{address}"\nports = [3]\n'
            f'[[stream]]\nhandle = {place + 1}\nport = {self.ingress(place)}\nkind = "null"\naddress = "{address}"\nvid = 10\ntag = "tagged"\n'
            f"[[gate]]\nnumber = {place + 1}\ncycle = {self.gate_cycle}\nentries = [{', '.join(rows)}]\n"
            f"[[filter]]\nnumber = {place + 10}\nhandle = {place + 1}\ngate = {place + 1}\nmax_sdu = {self.sdu}\n{kind}\n"
        )


def record(time, place, sdu, captured):
    """A record of a stream's frame with `sdu` SDU octets; only its first octets are captured."""
    frame = ADDRESS + bytes([place + 10]) + SOURCE + struct.pack(">HHH", 0x8100, 7 << 13 | 10, 0x88B5)
    length = sdu + 16
    octets = frame[: min(len(frame), length)]
    if captured and length < 18:
        octets = frame[:length]
    seconds, rest = divmod(time, 1_000_000_000)
    return struct.pack("<IIII", seconds, rest, len(octets), max(length, len(octets))) + octets


def arrivals(draw, plan, least):
    """Random arrivals: bursts in open intervals of the stream gate, at their starts, their ends or between."""
    found, sizes = [], sorted({least, max(least, 44), plan.sdu // 2 + 1, plan.sdu})
    sizes = [it for it in sizes if least <= it <= plan.sdu]
    way, size = draw.choice(["start", "end", "any", "spread"]), draw.choice(sizes)
    most = min(2 * plan.room + 4, 60)
    for cycle in range(draw.randint(1, 6)):
        for place, entries in enumerate(plan.gates):
            for start, length, octets in entries:
                begin = cycle * plan.gate_cycle + start
                for _ in range(draw.randint(0, most)):
                    at = {"start": begin, "end": begin + length - 1}.get(way)
                    if at is None or draw.random() < 0.1:
                        at = begin + draw.randint(0, length - 1)
                    found.append((at, place, size if draw.random() < 0.9 else draw.choice(sizes)))
    return sorted(found)


def sections_of(folder, plan, frames, cut):
    """The sections of the streams in the report of a run of these arrivals."""
    header = struct.pack("<IHHiIII", 0xA1B23C4D, 2, 4, 0, 0, 65535, 1)
    for port in (1, 2, 3):
        with open(f"{folder}/in/{port}.pcap", "wb") as file:
            file.write(header)
            file.write(b"".join(record(at, place, sdu, cut) for at, place, sdu in frames if plan.ingress(place) == port))
    ran = subprocess.run([PROGRAM, "run", f"{folder}/plan.toml", f"{folder}/in", f"{folder}/out"], capture_output=True, text=True)
    if ran.returncode:
        sys.exit(f"run: {ran.stdout}{ran.stderr}")
    with open(f"{folder}/out/report.txt", encoding="ascii") as file:
        sections = re.split(r"^(?=filter )", file.read(), flags=re.M)
    return [it for it in sections if it.startswith("filter ") and not it.startswith("filter 99")]


def changed_sections(folder, plan, frames, cut, sections):
    """The number of streams whose section differs from that of a run with only their own frames."""
    alone = [sections_of(folder, plan, [it for it in frames if it[1] == place], cut)[place] for place in range(plan.count)]
    return sum(one != other for one, other in zip(alone, sections))


def search(draw, folder, plan, least, tries, apart):
    """The longest delay that random runs find, and how many sections of an `apart` queue changed."""
    longest, changed = 0, 0
    for _ in range(tries):
        frames = arrivals(draw, plan, least)
        sections = sections_of(folder, plan, frames, least < 44)
        longest = max([longest] + [int(it) for it in re.findall(r"^delay (\d+)$", "".join(sections), re.M)])
        if apart:
            changed += changed_sections(folder, plan, frames, least < 44, sections)
    return longest, changed


def main():
    numbers = [it for it in sys.argv[1:] if it not in ("--groups", "--apart")]
    grouped, in_turn = len(numbers) < len(sys.argv) - 1, "--apart" in sys.argv
    plans, tries, seed = [int(it) for it in numbers] + [20, 60, 1][len(numbers) :]
    draw, nearest, exceeded, changed, apart_plans = random.Random(seed), {}, 0, 0, 0
    with tempfile.TemporaryDirectory() as folder:
        os.mkdir(f"{folder}/in")
        os.mkdir(f"{folder}/out")
        made = 0
        while made < plans:
            plan = Plan(draw, grouped, in_turn)
            with open(f"{folder}/plan.toml", "w", encoding="ascii") as file:
                file.write(plan.text())
            ran = subprocess.run([PROGRAM, "bounds", f"{folder}/plan.toml"], capture_output=True, text=True)
            if ran.returncode:
                if "plan refused" in ran.stdout + ran.stderr:
                    continue
                sys.exit(f"bounds: {ran.stdout}{ran.stderr}")
            made += 1
            said = re.search(r"(?:filter 10|group 1) port 3 class 7( coarse| unmetered| lossy)? bound (\d+)(?: padded (\d+))?", ran.stdout)
            bounds = {"bound": (int(said.group(2)), 2)}
            if said.group(3):
                bounds["padded"] = (int(said.group(3)), 44)
            words, apart = [], ran.stdout.splitlines()[0].endswith(" apart")
            apart_plans += apart
            for name, (bound, least) in bounds.items():
                delay, differing = search(draw, folder, plan, least, tries, apart)
                exceeded += delay > bound
                changed += differing
                share = delay / bound if bound else 0
                nearest[name] = max(nearest.get(name, (0, 0)), (share, made))
                words.append(f"{name} {bound} delay {delay} share {share:.3f}")
            print(f"plan {made}{said.group(1) or ''}{' apart' if apart else ''}: {', '.join(words)}", flush=True)
    for name, (share, number) in nearest.items():
        print(f"nearest to {name}: {share:.4f} (plan {number})")
    print(f"exceeded {exceeded}, plans with an apart queue {apart_plans}, changed sections there {changed}")
    sys.exit(1 if exceeded or changed else 0)


if __name__ == "__main__":
    main()
