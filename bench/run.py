#!/usr/bin/env python3
"""Times `tsnbridge wire`, `run` and `check` beside other programs: run.py [--beside PROGRAM] [FOLDER]

`wire 1000 64` over captures of 10,000, 100,000 and 1,000,000 frames, of 64 octets and of mixed sizes, beside `cp` and,
where they are installed, `editcap` and `tcprewrite`; `run` over plans of 4, 8 and 16 ports with a capture for each, of many
filters and streams, and of long gate control lists, beside `cp` of the captures; `check` of two large plans, alone. PROGRAM is one with the same command line. All run in turn on the same files, which are in memory by
then. A row has the shortest of eleven times (of seven, for a run), its nanoseconds for each frame, its ratio to `cp`, the
least processor time for each frame, its ratio to that of PROGRAM, and the peak memory (where GNU `time` is installed).
Files go into FOLDER, by default a new one that is removed at the end.
"""
import os
import shutil
import subprocess
import sys
import tempfile
import time

import captures
import plans

TOP = os.path.dirname(os.path.dirname(os.path.abspath(__file__)))
BUILT = os.path.join(TOP, "crates", "tsnbridge", "out", "tsnbridge")
PROGRAM = BUILT if os.path.exists(BUILT) else os.path.join(TOP, "release", "tsnbridge")
# ports, frames of each, filters of each (with four streams each, where there is more than one), entries of each list
RUNS = [(4, 2_500, 1, 0), (4, 25_000, 1, 0), (4, 250_000, 1, 0), (8, 125_000, 1, 0), (16, 200_000, 1, 0), (4, 250_000, 255, 0), (4, 250_000, 1, 256)]
HEADER = "| frames | program | ms | ns a frame | times `cp` | processor ns a frame | ratio | peak MiB |\n|---|---|---|---|---|---|---|---|"


def programs_of_wire(source, folder, beside):
    """The command lines, by name, of what is installed, for one capture."""
    target = os.path.join(folder, "out.pcap")
    lines = {"cp": ["cp", source, target], "tsnbridge wire": [PROGRAM, "wire", "1000", "64", source, target]}
    if beside:
        lines[f"{os.path.basename(beside)} wire"] = [beside, "wire", "1000", "64", source, target]
    lines["editcap"] = ["editcap", "-F", "nsecpcap", source, target]
    lines["tcprewrite"] = ["tcprewrite", "--infile=" + source, "--outfile=" + target]
    return {name: line for name, line in lines.items() if shutil.which(line[0])}


def programs_of_run(case, folder, beside):
    """The command lines, by name, for a plan and a folder of captures."""
    words = ["run", os.path.join(case, "plan.toml"), os.path.join(case, "in"), folder]
    inputs = [os.path.join(case, "in", name) for name in sorted(os.listdir(os.path.join(case, "in")))]
    lines = {"cp": ["cp", *inputs, folder], "tsnbridge run": [PROGRAM, *words]}
    if beside:
        lines[f"{os.path.basename(beside)} run"] = [beside, *words]
    return lines


def empty(folder):
    """Makes a folder anew."""
    shutil.rmtree(folder, ignore_errors=True)
    os.mkdir(folder)


def once(line, folder):
    """Runs a program into an empty folder: its seconds, and those of the processor."""
    empty(folder)
    start = time.perf_counter()
    child = subprocess.Popen(line, stdout=subprocess.DEVNULL)
    _, status, usage = os.wait4(child.pid, 0)
    seconds = time.perf_counter() - start
    child.returncode = os.waitstatus_to_exitcode(status)
    if child.returncode != 0:
        sys.exit(f"{' '.join(line)} ended with {child.returncode}")
    return seconds, usage.ru_utime + usage.ru_stime


def peak_memory(line, folder):
    """The peak memory of a program in MiB, as text. This process is larger than some of them, so it can't tell itself."""
    if not shutil.which("time"):
        return "-"
    empty(folder)
    done = subprocess.run([shutil.which("time"), "-f", "%M", *line], stdout=subprocess.DEVNULL, stderr=subprocess.PIPE, text=True)
    return f"{int(done.stderr.split()[-1]) / 1024:.0f}"


def measure(title, count, lines, folder, turns):
    """Prints the rows of one case of so many frames."""
    peaks = {name: peak_memory(line, folder) for name, line in lines.items()}
    runs = {name: [] for name in lines}
    for _ in range(turns):
        for name, line in lines.items():
            runs[name].append(once(line, folder))
    best = {name: min(seconds for seconds, _ in times) for name, times in runs.items()}
    processor = {name: min(seconds for _, seconds in times) for name, times in runs.items()}
    anchor = list(lines)[2] if len(lines) > 2 and "editcap" not in list(lines)[2] else None
    for name in lines:
        ratio = f"{processor[name] / processor[anchor]:.2f}" if anchor else "-"
        print(
            f"| {title} | {name} | {best[name] * 1e3:.1f} | {best[name] * 1e9 / count:.0f} | {best[name] / best['cp']:.1f} "
            f"| {processor[name] * 1e9 / count:.0f} | {ratio} | {peaks[name]} |",
            flush=True,
        )


def measure_wire(work, count, kind, beside):
    """One capture through one queue."""
    source = os.path.join(work, f"{kind}-{count}.pcap")
    folder = os.path.join(work, "out")
    captures.write(source, count, kind)
    measure(f"{count:,} of {kind}", count, programs_of_wire(source, folder, beside), folder, 11)
    os.remove(source)


def measure_run(work, ports, count, flows, entries, beside):
    """A plan with so many ports, frames, filters and entries of a list for each."""
    case = os.path.join(work, f"{ports}-{count}-{flows}-{entries}")
    folder = os.path.join(work, "out")
    captures.write_all(case, ports, count, "mixed", flows, entries)
    title = f"{ports} ports, {count:,} each" + (f", {ports * flows} filters" if flows > 1 else "") + (f", lists of {entries}" if entries else "")
    measure(title, ports * count, programs_of_run(case, folder, beside), folder, 7)
    shutil.rmtree(case)


def measure_check(work, kind):
    """Prints the row of a check of a large plan."""
    source = os.path.join(work, f"{kind}.toml")
    with open(source, "w", encoding="utf-8") as file:
        file.write(plans.TEXTS[kind]())
    times = [once([PROGRAM, "check", source], os.path.join(work, "out")) for _ in range(11)]
    print(f"| {kind} | {os.path.getsize(source):,} | {min(seconds for seconds, _ in times) * 1e3:.1f} |", flush=True)
    os.remove(source)


def main():
    words = sys.argv[1:]
    beside = None
    if words[:1] == ["--beside"]:
        beside, words = os.path.abspath(words[1]), words[2:]
    if not os.path.exists(PROGRAM):
        sys.exit("there is no program: rt ci builds crates/tsnbridge/out/tsnbridge")
    work = words[0] if words else tempfile.mkdtemp(prefix="tsnbridge-bench-")
    print(HEADER)
    for kind in captures.SIZES:
        for count in (10_000, 100_000, 1_000_000):
            measure_wire(work, count, kind, beside)
    for case in RUNS:
        measure_run(work, *case, beside)
    print("\n| plan | octets | ms of `check` |\n|---|---|---|")
    for kind in plans.TEXTS:
        measure_check(work, kind)
    if not words:
        shutil.rmtree(work)


if __name__ == "__main__":
    main()
