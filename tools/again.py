#!/usr/bin/env python3
"""Proves what has changed since it passed: again.py [--lanes N] [--only proof,tests,edits,run] [CRATE ..], at the top of a checkout.

Each task of `rt ci` (a crate's proof, its tests, its edits, its runs) is a process of its own, from nothing as in `rt ci`. A task that
passed isn't repeated while all files that it reads stay the same. .again.json keeps their sums, crates/*/out/rlib the libraries. The
script prints the processor seconds of each task. Only `rt ci` gives the verdict.

    again.py check CRATE [FLAG ..]   checks one crate over the libraries that passed, and keeps its work for the next time
                                     (flags of `rattle check`, as --only NAME, --progress, --test)
    again.py build [CRATE ..]        proves and builds these crates (all, if none is named) and all below over kept work: an unchanged
                                     proof isn't repeated, and each crate takes all processors that no other crate needs
"""
import hashlib, importlib.machinery, importlib.util, json, os, resource, shutil, subprocess, sys, threading, time
from concurrent.futures import FIRST_COMPLETED, ThreadPoolExecutor, wait

ROOT = os.getcwd()
KEPT = f"{ROOT}/.again.json"
KINDS = ["proof", "tests", "edits", "run"]
# what the largest checks were seen to take, in bytes
MOST = 3_200_000_000


def kit():
    """The program `rt` as a module."""
    loader = importlib.machinery.SourceFileLoader("rt", os.path.realpath(shutil.which("rt")))
    made = importlib.util.module_from_spec(importlib.util.spec_from_loader("rt", loader))
    loader.exec_module(made)
    return made


rt = kit()
lib = rt.rtlib


def crates():
    """The crates of the checkout, lowest first, as `rt ci` sees them."""
    lib.stop = rt.stop
    rt.Crate.cuts_libraries = True
    for name in (lib.ALLOW_C, lib.BACKEND, "RT_SECONDS"):
        os.environ.pop(name, None)
    lib.guarded()
    rt.Crate.allowed = rt.handles_of(ROOT)
    lib.Crate = rt.Crate
    return sorted(lib.crates_below(ROOT), key=lambda it: len(it.below()))


def named(name):
    return next(it for it in crates() if it.name == name)


def tries(crate, edits):
    """Of each edit whether it is refused, and what is said of it, as the kit at hand tries them: over one check of the crate."""
    flags, tried = ["--jobs", "1"], []
    if hasattr(rt, "must_fail_all"):
        return rt.must_fail_all(crate, edits, flags)
    with rt.ending():
        room = rt.seeded(crate, flags)
        for number, edit in enumerate(edits):
            over = room and f"{room}/{number}"
            if room:
                rt.linked(f"{room}/seed", over)
            kind, said = rt.must_fail(crate, edit, flags, over)
            tried.append((kind in (rt.REFUSED, rt.AT_LIMIT), said))
    return tried


def do(name, kind):
    """One task; its last line has the word that tells how it ended."""
    crate, begun, well = named(name), time.time(), True
    crate.out = sys.stdout
    os.makedirs(f"{crate.folder}/out", exist_ok=True)
    if kind == "proof":
        lib.stop_on_text(crate, "verdict")
        rt.stop_on_words(crate)
        well = not lib.fmt(crate.folder, "--check", crate.out) and not crate.ci(["--jobs", "1"], False)
    elif kind == "tests":
        well = not crate.ci(["--jobs", "1"], True)
    elif kind == "edits":
        good, bad = rt.edits_of(crate)
        for refused, said in tries(crate, good):
            print(said)
            well = well and refused
        well = well and not bad
    else:
        rt.read_files(crate)
        for tests in (False, True):
            made = f"{crate.folder}/out/{crate.name}{'_tests' if tests else ''}"
            for end in rt.BACKENDS.values():
                if (tests or crate.is_program) and os.path.isfile(made + end):
                    well = rt.run(crate, tests, end) and well
    used = resource.getrusage(resource.RUSAGE_CHILDREN)
    print(f"{name} {kind} {'passed' if well else 'FAILED'}: {used.ru_utime + used.ru_stime:.0f} s of a processor, {time.time() - begun:.0f} s, {used.ru_maxrss // 1024} MiB")
    sys.exit(0 if well else 1)


def check(name, *flags):
    """A crate over the libraries that passed."""
    crate = named(name)
    missing = [it.name for it in crate.below() if not os.path.exists(it.rlib)]
    if missing:
        sys.exit(f"not proved yet: {' '.join(missing)}")
    tests = "--test" in flags
    kept = f"out/incremental{'_tests' * tests}"
    os.makedirs(f"{crate.folder}/{kept}", exist_ok=True)
    words = crate.words(["--jobs", "1", *flags], tests=tests, keeps=False)
    sys.exit(subprocess.run([*lib.guarded(), lib.RATTLE, "check", *words, "--incremental", kept], cwd=crate.folder).returncode)


def make(name, jobs):
    """One crate's library or program, over kept work."""
    crate = named(name)
    crate.out = sys.stdout
    os.makedirs(f"{crate.folder}/out/rlib", exist_ok=True)
    os.makedirs(f"{crate.folder}/out/incremental", exist_ok=True)
    words = crate.words(["--jobs", jobs], tests=False, keeps=False) + ["--incremental", "out/incremental"]
    if crate.is_program:
        made = f"out/{name}"
        words += ["--toolchain", f"{lib.KIT}/toolchain", "--backend", "llvm", "-o", f"{made}.o"]
    else:
        words += ["-o", crate.rlib]
    status = subprocess.run([*lib.guarded(), lib.RATTLE, "build", *words], cwd=crate.folder).returncode
    if not status and crate.is_program:
        status = crate.link(f"{made}.o", made)
    sys.exit(status)


class Sums:
    """Sums of all that a task reads."""

    def __init__(self):
        self.known = {}

    def of(self, crate):
        if crate.name not in self.known:
            sum = hashlib.sha256(repr((crate.said, crate.of_kit, lib.text_of(f"{lib.KIT}/KIT-ID"))).encode())
            for file in lib.files_of(crate.folder):
                with open(file, "rb") as it:
                    sum.update(repr((os.path.relpath(file, crate.folder), it.read())).encode())
            for dep in sorted(crate.deps, key=lambda it: it.name):
                sum.update(self.of(dep).encode())
            self.known[crate.name] = sum.hexdigest()
        return self.known[crate.name]

    def task(self, crate, kind):
        sum = hashlib.sha256((self.of(crate) + kind).encode())
        files = rt.edits_of(crate)[0] if kind == "edits" else []
        if kind == "run":
            files = [f"{crate.folder}/{it}" for it in ("args", "status", "stdin", "stdout")]
            for at, folders, names in os.walk(f"{crate.folder}/data"):
                folders.sort()
                files += [f"{at}/{it}" for it in sorted(names)]
        for file in files:
            if os.path.isfile(file):
                with open(file, "rb") as it:
                    sum.update(repr((os.path.relpath(file, crate.folder), it.read())).encode())
        return sum.hexdigest()


def tasks_of(all, kinds, wanted):
    """Each task with those that it waits for and its size in lines."""
    tasks = {}
    for crate in all:
        is_wanted = not wanted or crate.name in wanted
        if not is_wanted and not any(crate in it.below() for it in all if it.name in wanted):
            continue
        below, lines = [(it.name, "proof") for it in crate.below()], crate.count(rb"\n")
        has = {"tests": crate.has_tests(), "edits": bool(rt.edits_of(crate)[0]), "run": crate.is_program or crate.has_tests()}
        tasks[crate.name, "proof"] = (below, lines, crate)
        for kind in KINDS[1:]:
            if is_wanted and kind in kinds and has[kind]:
                own = [(crate.name, it) for it in ("proof", "tests") if it != kind and (crate.name, it) in tasks and (kind == "run" or it == "proof")]
                tasks[crate.name, kind] = (below + own, lines if kind != "run" else 1, crate)
    return tasks


def again(lanes, kinds, wanted):
    tasks, sums, lock = tasks_of(crates(), kinds, wanted), Sums(), threading.Lock()
    kept = json.loads(lib.text_of(KEPT) or "{}")
    behind = {it: 0 for it in tasks}
    for key in reversed([*tasks]):
        behind[key] += tasks[key][1]
        for it in tasks[key][0]:
            behind[it] = max(behind[it], behind[key])

    def run(key):
        name, kind = key
        crate, sum = tasks[key][2], sums.task(tasks[key][2], kind)
        has_made = kind != "proof" or crate.is_program or os.path.exists(crate.rlib)
        if kept.get(f"{name} {kind}") == sum and has_made:
            return True, ""
        log = f"{crate.folder}/out/{kind}.log"
        os.makedirs(os.path.dirname(log), exist_ok=True)
        with open(log, "w") as out:
            ran = subprocess.run([sys.executable, "-u", os.path.realpath(__file__), "do", name, kind], stdout=out, stderr=subprocess.STDOUT, stdin=subprocess.DEVNULL, cwd=ROOT)
        if ran.returncode:
            return False, f"{name} {kind} FAILED: {log}"
        with lock:
            kept[f"{name} {kind}"] = sum
            with open(f"{KEPT}.new", "w") as it:
                json.dump(kept, it)
            os.replace(f"{KEPT}.new", KEPT)
        return True, lib.text_of(log).rstrip().split("\n")[-1]

    left, running, ended = sorted(tasks, key=lambda it: (KINDS.index(it[1]) > 1, -behind[it])), {}, {}
    with ThreadPoolExecutor(lanes) as pool:
        while left or running:
            for key in [it for it in left if any(ended.get(below) is False for below in tasks[it][0])]:
                left.remove(key)
                ended[key] = False
            for key in [it for it in left if all(ended.get(below) or below not in tasks for below in tasks[it][0])]:
                if len(running) < lanes and (not running or rt.free() > MOST):
                    left.remove(key)
                    running[pool.submit(run, key)] = key
            for done in wait(running, return_when=FIRST_COMPLETED).done if running else []:
                key = running.pop(done)
                ended[key], said = done.result()
                if said:
                    print(said, flush=True)
    failed = [" ".join(it) for it in ended if not ended[it]]
    print(f"{len(ended) - len(failed)} passed, {len(failed)} failed{': ' if failed else ''}{', '.join(failed)}")
    sys.exit(1 if failed else 0)


def build(wanted):
    """Builds crates over kept work, lowest first."""
    all, sums = crates(), Sums()
    kept = json.loads(lib.text_of(KEPT) or "{}")
    left = [it for it in all if not wanted or it.name in wanted or any(it in above.below() for above in all if above.name in wanted)]
    lanes, running, failed, lock = rt.processors(), {}, set(), threading.Lock()

    def run(crate, jobs):
        made = f"{crate.folder}/out/{crate.name}" if crate.is_program else crate.rlib
        key, sum = f"{crate.name} build", sums.of(crate)
        if kept.get(key) == sum and os.path.exists(made):
            return True
        begun, log = time.time(), f"{crate.folder}/out/build.log"
        os.makedirs(os.path.dirname(log), exist_ok=True)
        with open(log, "w") as out:
            words = [sys.executable, "-u", os.path.realpath(__file__), "make", crate.name, str(jobs)]
            ran = subprocess.run(words, stdout=out, stderr=subprocess.STDOUT, stdin=subprocess.DEVNULL, cwd=ROOT)
        if not ran.returncode:
            with lock:
                kept[key] = sum
                with open(f"{KEPT}.new", "w") as it:
                    json.dump(kept, it)
                os.replace(f"{KEPT}.new", KEPT)
        print(f"{crate.name} {'FAILED: ' + log if ran.returncode else 'built'}: {time.time() - begun:.0f} s, {jobs} jobs", flush=True)
        return not ran.returncode

    with ThreadPoolExecutor(lanes) as pool:
        while left or running:
            pending = {*left, *(it for it, _ in running.values())}
            ready = [it for it in left if not any(below in pending or below.name in failed for below in it.below())]
            for crate in [it for it in left if any(below.name in failed for below in it.below())]:
                left.remove(crate)
                failed.add(crate.name)
            used = sum(jobs for _, jobs in running.values())
            for number, crate in enumerate(ready):
                jobs = max(1, (lanes - used) // (len(ready) - number))
                if used < lanes and (not running or rt.free() > MOST):
                    left.remove(crate)
                    running[pool.submit(run, crate, jobs)] = (crate, jobs)
                    used += jobs
            for done in wait(running, return_when=FIRST_COMPLETED).done if running else []:
                crate, _ = running.pop(done)
                if not done.result():
                    failed.add(crate.name)
    print(f"{len(failed)} failed{': ' if failed else ''}{', '.join(sorted(failed))}")
    sys.exit(1 if failed else 0)


def main(words):
    if words[:1] == ["make"]:
        make(*words[1:])
    if words[:1] == ["build"]:
        build({*words[1:]})
    if words[:1] == ["do"]:
        do(*words[1:])
    if words[:1] == ["check"]:
        check(*words[1:])
    lanes, kinds = rt.processors(), KINDS
    while words and words[0].startswith("--"):
        flag, value, *words = words
        lanes, kinds = (int(value), kinds) if flag == "--lanes" else (lanes, value.split(","))
    again(lanes, kinds, {*words})


if __name__ == "__main__":
    main(sys.argv[1:])
