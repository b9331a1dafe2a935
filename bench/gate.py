#!/usr/bin/env python3
"""Measures what the gate costs from nothing, and prints the table of docs/GATE.md.

Of each crate, lowest first: its lines, and the processor time of its proof, of its tests and of its must-fail edits.
Each is taken by `rt ci CRATE` in a copy, with what stands below it kept: first without tests and edits, then with
the tests, and last with the edits too. A comment that is new each time keeps earlier runs from being used. It takes
the time of the gate, and that of the proofs alone once more.

usage: bench/gate.py [--to STAGE] [CRATE..]     all crates, if none is named; those below must be among them
With `--to proof` or `--to tests` the stages behind that are left out.
"""
import concurrent.futures
import glob
import os
import re
import shutil
import subprocess
import sys
import tempfile
import time

TOP = os.path.join(os.path.dirname(os.path.abspath(__file__)), "..")
STAGES = ("proof", "tests", "edits")


def crates_below():
    """Returns the crates of the repository, each with those of them that it uses."""
    below = {}
    with open(os.path.join(TOP, "crates.txt"), encoding="utf-8") as lines:
        for line in lines:
            if ":" in line.split("#")[0]:
                name, uses = line.split("#")[0].split(":")
                below[name.split()[0]] = uses.split()
    return {name: [one for one in uses if one in below] for name, uses in below.items()}


def count(name, pattern):
    lines = 0
    for path in glob.glob(f"{TOP}/crates/{name}/{pattern}", recursive=True):
        with open(path, encoding="utf-8") as text:
            lines += sum(1 for _ in text)
    return lines


def copy(room, stage, salt):
    """Makes the copy of a stage."""
    place = os.path.join(room, stage)
    os.makedirs(place)
    for part in ("crates.txt", "HANDLES"):
        shutil.copy(os.path.join(TOP, part), place)
    shutil.copytree(os.path.join(TOP, "crates"), os.path.join(place, "crates"), ignore=shutil.ignore_patterns("out"))
    subprocess.run(["git", "init", "-q", place], check=True)
    for root in glob.glob(f"{place}/crates/*/src/lib.rt") + glob.glob(f"{place}/crates/*/src/main.rt"):
        with open(root, encoding="utf-8") as source:
            text = source.read()
        if stage == "proof":
            text = re.sub(r"\n#\[cfg\(test\)\]\nmod tests;\n", "", text)
            text = text.rstrip("\n") + "\n"
        with open(root, "w", encoding="utf-8") as source:
            source.write(f"{text}\n// {salt}\n")
        crate = os.path.dirname(os.path.dirname(root))
        if stage == "proof":
            for tests in glob.glob(f"{crate}/src/tests*") + glob.glob(f"{crate}/proofs/tests*"):
                (shutil.rmtree if os.path.isdir(tests) else os.remove)(tests)
        if stage != "edits":
            shutil.rmtree(f"{crate}/must-fail", ignore_errors=True)
    return place


def spend(place, name):
    """Returns the processor seconds of `rt ci` on one crate, and whether it passed."""
    with open(os.path.join(place, f"{name}.log"), "wb") as log:
        child = subprocess.Popen(["rt", "ci", name], cwd=place, stdout=log, stderr=subprocess.STDOUT, stdin=subprocess.DEVNULL)
        _, status, used = os.wait4(child.pid, 0)
        child.returncode = status
    return used.ru_utime + used.ru_stime, status == 0


def levels(below):
    """Returns the crates in groups, each of which stands on the groups before it alone."""
    left, done = dict(below), set()
    while left:
        group = [name for name, uses in left.items() if done.issuperset(uses)]
        yield group
        done.update(group)
        for name in group:
            del left[name]


def main():
    below, names = crates_below(), sys.argv[1:]
    stages = STAGES
    if names[:1] == ["--to"]:
        stages = STAGES[: STAGES.index(names[1]) + 1]
        names = names[2:]
    if names:
        below = {name: [one for one in below[name] if one in names] for name in names}
    room = tempfile.mkdtemp()
    salt = f"measured at {time.time_ns()}"
    cost, walls, failed = {}, {}, []
    for stage in stages:
        place = copy(room, stage, salt)
        start = time.monotonic()
        for group in levels(below):
            with concurrent.futures.ThreadPoolExecutor(os.cpu_count()) as pool:
                for name, (seconds, passed) in zip(group, pool.map(lambda name: spend(place, name), group)):
                    cost[stage, name] = seconds
                    if not passed:
                        failed.append(f"{stage} of {name}: {place}/{name}.log")
        walls[stage] = time.monotonic() - start
    print("| Crate | Lines of src, specs, proofs | " + " | ".join(stage.capitalize() for stage in stages) + " | Number of edits |")
    print("|---|---|" + "---|" * len(stages) + "---|")
    total = dict.fromkeys(stages, 0.0)
    for name in below:
        lines = ", ".join(str(count(name, pattern)) for pattern in ("src/**/*.rt", "specs/**/*.antt", "proofs/**/*.antt"))
        seconds = {stage: cost[stage, name] for stage in stages}
        if "tests" in stages:
            # the run with tests proves the crate once more
            seconds["tests"] = max(0.0, cost["tests", name] - cost["proof", name])
        for stage in stages:
            total[stage] += seconds[stage]
        edits = len(glob.glob(f"{TOP}/crates/{name}/must-fail/*.edit"))
        print(f"| {name} | {lines} | " + " | ".join(f"{seconds[stage]:.0f} s" for stage in stages) + f" | {edits} |")
    print()
    print(", ".join(f"{stage} {total[stage] / 60:.0f} min" for stage in stages) + f", together {sum(total.values()) / 60:.0f} min of processor time")
    print(f"{os.cpu_count()} processors, {sum(walls.values()) / 60:.0f} min of wall time")
    for one in failed:
        print(f"FAILED {one}")
    if not failed:
        shutil.rmtree(room)
    return 1 if failed else 0


sys.exit(main())
