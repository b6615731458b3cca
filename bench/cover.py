"""Called by cover.sh with its words. See there."""
import argparse
import concurrent.futures
import contextlib
import os
import pathlib
import shlex
import shutil
import subprocess
import sys
import tempfile
import time

ROOT = pathlib.Path(__file__).resolve().parent.parent
sys.dont_write_bytecode = True  # so no __pycache__ is left beside the tables of cases
sys.path.insert(0, str(ROOT / "acceptance"))
import fixpoint
import serial

# What `serial.fabric` makes of each, and whether all devices are emulated too.
SHAPES = {"fabric-336": ((8, 8, 32, 16, 0), True), "fabric-2024": ((42, 4, 44, 8, 0), False)}
BLOCK = 64  # prefixes that decide at once, so that few routes are in memory


def measured(words, folder):
    """Seconds on the clock, CPU seconds and peak octets of a run and of what it started, and its
    standard output. The peak counts the memory of this process too, which is small until tables
    are compared."""
    start = time.perf_counter()
    with tempfile.TemporaryFile() as caught:
        child = subprocess.Popen(words, cwd=folder, stdin=subprocess.DEVNULL, stdout=caught)
        _, status, usage = os.wait4(child.pid, 0)
        child.returncode = os.waitstatus_to_exitcode(status)
        caught.seek(0)
        text = caught.read().decode()
    if child.returncode != 0:
        sys.exit(f"{words} ends with status {child.returncode}: {text[-400:]}")
    seconds = time.perf_counter() - start
    return seconds, usage.ru_utime + usage.ru_stime, usage.ru_maxrss * 1024, text


def told(name, clock, cpu, octets, more=""):
    print(f"  {name:16} {clock:8.1f} s  {cpu:8.1f} s CPU  {octets / 1e6:7.1f} MB{more}", flush=True)


def house(spot, program):
    """Puts the tools there, and the program as the script `crystal` beside them."""
    shutil.copytree(ROOT / "tools", spot / "tools")
    crystal = spot / "crystal"
    crystal.write_text(f'#!/bin/sh\nexec {shlex.quote(str(program))} "$@"\n')
    crystal.chmod(0o755)


def run_parts(folder, jobs):
    """Runs the list of jobs, so many side by side."""
    calls = [shlex.split(line) for line in (folder / "jobs").read_text().splitlines()]
    start = time.perf_counter()
    with concurrent.futures.ThreadPoolExecutor(jobs) as pool:
        runs = list(pool.map(lambda words: measured(words, folder), calls))
    clock = time.perf_counter() - start
    each = sorted(cpu for _, cpu, _, _ in runs)
    more = f" at most; {each[0]:.1f} to {each[-1]:.1f} s CPU a part, {jobs} side by side"
    told("the parts", clock, sum(each), max(run[2] for run in runs), more)


def tables_of(path, plan):
    """What each device holds in these tables. Equal choices are one, since there are few."""
    place = {device["name"]: n for n, device in enumerate(plan["device"])}
    held, choices, rows = [{} for _ in place], {}, None
    with open(path) as file:
        for line in file:
            word, _, rest = line.rstrip("\n").partition(" ")
            if word == "table":
                rows = held[place[rest]]
                continue
            if rest not in choices:
                source, _, found = rest.partition("path ")
                path, _, origin = found.partition(" origin ")
                sender = None if source == "own " else place[source.split(" ")[1]]
                numbers = () if path == "-" else tuple(map(int, path.split(" ")))
                choices[rest] = sender, numbers, origin
            rows[word] = choices[rest]
    return held


def check_stable(plan, held):
    """Ends the bench where the devices would decide otherwise, if they did so once more."""
    linked, policy = fixpoint.neighbours(plan), fixpoint.policies(plan)
    there = {prefix for rows in held for prefix in rows}
    there |= {prefix for device in plan["device"] for prefix, _ in fixpoint.owns(device)}
    there = sorted(there, key=fixpoint.by_prefix)
    for at in range(0, len(there), BLOCK):
        block = set(there[at:at + BLOCK])
        some = [{it: rows[it] for it in block if it in rows} for rows in held]
        device = [
            {**it, "own": [own for own in it.get("own", []) if own.split(" ")[0] in block]}
            for it in plan["device"]
        ]
        for n, rows in enumerate(fixpoint.best_of_all(device, linked, policy, some)):
            if rows != some[n]:
                prefix = min(it for it in block if rows.get(it) != some[n].get(it))
                found = f"{some[n].get(prefix)}, and would decide for {rows.get(prefix)}"
                sys.exit(f"{device[n]['name']} holds for {prefix} {found}")
    return sum(map(len, held))


def whole(spot, program):
    """The tables that the program shows where all devices are emulated."""
    (spot / "script.toml").write_text(serial.SCRIPT)
    words = [program, "serial", "plan.toml", "script.toml", "/dev/null"]
    *figures, text = measured(words, spot)
    if not text.startswith(serial.DONE):
        sys.exit("the emulation of all devices isn't quiet")
    told("all in one", *figures)
    return text.removeprefix(serial.DONE)


def cover(asked, name, spot):
    """Covers a shape, runs and merges its parts, and compares the tables."""
    words, in_one = SHAPES[name]
    house(spot, asked.program.resolve())
    (spot / "plan.toml").write_text(serial.fabric(*words))
    plan = fixpoint.read(spot / "plan.toml")
    tools, folder = spot / "tools", spot / "parts"
    print(f"{name}: {len(plan['device'])} devices, {len(plan['link'])} links", flush=True)
    *figures, text = measured([tools / "cover", "plan.toml", "--out", "parts"], spot)
    lines = text.splitlines()
    longest = max(path.stat().st_size for path in folder.glob("part-*[0-9].toml"))
    most = max(path.read_text().count("[[record]]") for path in folder.glob("part-*[0-9].toml"))
    told("cover", *figures, f"; {lines[-1]}")
    print(f"    {lines[0].partition(', ')[0]}; at most {most} records, {longest} octets a plan")
    run_parts(folder, asked.jobs)
    tables = sorted(folder.glob("*.tables"))
    *figures, _ = measured(
        [tools / "merge", "--plan", "plan.toml", "-o", "merged", *tables], spot
    )
    told("merge", *figures)
    if in_one and whole(spot, asked.program.resolve()) != (spot / "merged").read_text():
        sys.exit("the merged tables aren't those of the emulation of all devices")
    start = time.perf_counter()
    rows = check_stable(plan, tables_of(spot / "merged", plan))
    as_one = "as all in one, and " if in_one else ""
    print(f"  {rows} rows, {as_one}stable in the whole network ({time.perf_counter() - start:.0f} s)")


def number(word):
    if not word.isdecimal() or int(word) == 0:
        raise argparse.ArgumentTypeError(f"{word} is no number from 1 on")
    return int(word)


def main():
    words = argparse.ArgumentParser(prog="bench/cover.sh", allow_abbrev=False)
    words.add_argument("--jobs", metavar="N", type=number, default=2)
    words.add_argument("--keep", metavar="FOLDER", type=pathlib.Path)
    words.add_argument("--only", metavar="SHAPE", choices=SHAPES, help=", ".join(SHAPES))
    words.add_argument("--program", metavar="PROGRAM", type=pathlib.Path, default=serial.PROGRAM)
    asked = words.parse_args()
    if not os.access(asked.program, os.X_OK):
        sys.exit(f"there is no program {asked.program}; ./build proves and builds one")
    for name in [asked.only] if asked.only else SHAPES:
        with contextlib.ExitStack() as stack:
            if asked.keep:
                spot = asked.keep.resolve() / name
                spot.mkdir(parents=True)
            else:
                spot = pathlib.Path(stack.enter_context(tempfile.TemporaryDirectory()))
            cover(asked, name, spot)


if __name__ == "__main__":
    main()
