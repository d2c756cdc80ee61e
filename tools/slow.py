#!/usr/bin/env python3
"""Says what is slow in the proof of a crate, at the top of a checkout in which the libraries below it are built.

    slow.py CRATE           seconds of each function and of its parts, after `again.py check CRATE` with out/incremental removed
    slow.py CRATE FUNCTION  seconds of each goal of a function, named as module::Type::function; a goal without an answer is
                            left to `search rules`, which takes about as long as the kit's own search

The seconds are gaps between the times of the files that a check leaves; the first goal, before which there is none, may be
missing. While the second form runs, each answer is a module of its own, so one that cites another is told as an error; an
interrupt puts them back.
"""
import collections, glob, os, re, shutil, subprocess, sys, time

# what the kit makes of each function
PARTS = "Answers Code Given Goals Invariants Key Kinds Layout Lts Met Mir Named Proof Reads Statement Symbol TheLink Tie View".split()


def left(crate):
    """The files that a check left, with their times, oldest first."""
    found = glob.glob(f"crates/{crate}/out/incremental/*/Rattle-{crate}-*.oantt")
    return sorted((os.stat(it).st_mtime_ns / 1e9, re.sub(r".*-(specs|proofs)\.", "", it)[: -len(".oantt")]) for it in found)


def gaps(files):
    return [(end - begun, name) for (begun, _), (end, name) in zip(files, files[1:])]


def functions(crate):
    parts = collections.defaultdict(collections.Counter)
    for gap, name in gaps(left(crate)):
        words = name.split(".")
        end = next((i for i, it in enumerate(words) if i and it in PARTS), len(words))
        parts[".".join(words[:end])][".".join(words[end:])] += gap
    for name, own in sorted(parts.items(), key=lambda it: -sum(it[1].values()))[:30]:
        told = "  ".join(f"{part or '-'} {gap:.1f}" for part, gap in own.most_common(6) if gap >= 0.2)
        print(f"{sum(own.values()):6.1f} {name}: {told}")


def check(crate, *flags):
    here = os.path.dirname(os.path.realpath(__file__))
    words = [sys.executable, f"{here}/again.py", "check", crate, *flags]
    return subprocess.run(words, stdout=subprocess.PIPE, stderr=subprocess.STDOUT, text=True).stdout


def offered(crate, function):
    """The goals of a function, each with the names of what its answer is given, and the imports that they need."""
    room = f"crates/{crate}/out/goals"
    said = check(crate, "--start", function, "--generated", os.path.realpath(room))
    path = f"{room}/Rattle-{crate}-proofs/{function.replace('::', '/')}/AnswersOffered.antt"
    if not os.path.isfile(path):
        sys.exit(said[-2000:])
    with open(path, encoding="utf-8") as file:
        text = file.read()
    shutil.rmtree(room)
    return dict(re.findall(r"^(\S+) (g\b[^=\n]*) = \?", text, re.M)), text


def goals(crate, function):
    place = f"crates/{crate}/proofs/{function.replace('::', '/')}"
    path, module = f"{place}/Answers.antt", f"Rattle.{crate}.proofs.{function.replace('::', '.')}"
    of, text = offered(crate, function)
    was = None
    if os.path.isfile(path):
        with open(path, encoding="utf-8") as file:
            was = text = file.read()
    uses, *answers = re.split(r"\n(?=pub \S+ : goal)", text)
    if was is None:
        uses, answers = "\n".join(it for it in uses.split("\n") if it.startswith("use ")), []
    answered = {re.match(r"pub (\S+)", it)[1]: it for it in answers}
    if "rules" not in uses:
        uses = "use Rattle.std.proofs.Common.{rules}\n" + uses
    for name, given in of.items():
        answered.setdefault(name, f"pub {name} : goal.{name}\n{name} {given} = search rules")
    names = {f"G{i}": it for i, it in enumerate(answered)}
    os.makedirs(f"{place}/Answers", exist_ok=True)
    try:
        for number, name in names.items():
            with open(f"{place}/Answers/{number}.antt", "w", encoding="utf-8") as file:
                file.write(f"{uses}\n\n{answered[name].strip()}\n")
        with open(path, "w", encoding="utf-8") as file:
            file.write("\n".join(f"mod {it}" for it in names) + f"\nuse {module}.Goals as goal\n")
            file.write("".join(f"use {module}.Answers.{number}.{{{name} as own-{number}}}\n" for number, name in names.items()))
            file.write("".join(f"\npub {name} : goal.{name}\n{name} = own-{number}\n" for number, name in names.items()))
        begun = time.time()
        said = check(crate, "--only", function)
        made = [it for it in left(crate) if it[0] > begun]
        end = function.replace("::", ".")
        for gap, name in sorted(gaps(made), reverse=True):
            number = name.removeprefix(f"{end}.Answers.")
            if number in names:
                print(f"{gap:6.2f} {names[number]}")
        print(*[it[:200] for it in said.split("\n") if "error" in it], said.rstrip().split("\n")[-1], sep="\n")
    finally:
        shutil.rmtree(f"{place}/Answers")
        if was is None:
            os.remove(path)
            if not os.listdir(place):
                os.rmdir(place)
        else:
            with open(path, "w", encoding="utf-8") as file:
                file.write(was)


if __name__ == "__main__":
    if len(sys.argv) == 2:
        functions(sys.argv[1])
    elif len(sys.argv) == 3:
        goals(*sys.argv[1:])
    else:
        sys.exit(__doc__)
