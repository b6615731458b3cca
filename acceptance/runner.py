#!/usr/bin/env python3
"""Runs the program on the cases of the tables, each in a folder of its own, and on the examples.

    acceptance/runner.py PROGRAM [SCRIPT]

It compares standard output, the status and the files that are left; standard error must be empty.
Some cases more are programs: boundary.py runs a part of a fabric and the whole of it, fixpoint.py
computes the tables that the cases expect, generated.py compares them on made up plans, launch.py
tries the scripts that build and run the program, tools.py and makers.py those of tools/, cover.py
of these the ones that make plans of parts, and peers.py runs other programs that speak BGP. Where
SCRIPT, the script `crystal`, is named too, it must answer as the program does. Ends with 'N passed,
M failed', and with status 1 where a case failed.
"""
import difflib
import pathlib
import subprocess
import sys
import tempfile
import tomllib

sys.dont_write_bytecode = True
import tables

ROOT = tables.HERE.parent
EXAMPLES = ROOT / "examples"
LONGEST = 600  # seconds that a run may take
FEWEST_TABLES = 20  # cases with tables of whole networks, which fixpoint.py computes


def examples():
    """The examples as cases: plans, and what SCRIPT answers on PLAN as SCRIPT.PLAN.stdout."""
    for stdout in sorted(EXAMPLES.glob("**/*.stdout")):
        name = str(stdout.relative_to(EXAMPLES).with_suffix(""))
        script, _, plan = name.partition(".")
        files, leaves = [f"{plan or name}.toml"], {}
        words = ["plan", *files]
        if plan:
            files.append(f"{script}.toml")
            words = ["serial", *files, "trace.txt"]
            leaves["trace.txt"] = tables.Partly(b"trace 1\n", b"\n")
        files = {file: (EXAMPLES / file).read_bytes() for file in files}
        status = int(stdout.with_suffix(".status").read_text())
        yield tables.Case(
            f"examples/{name}", words, status, stdout.read_bytes(), files, files | leaves
        )


def differences(name, wanted, found):
    """What is found in the place of what is wanted, as lines."""
    wanted, found = (octets.decode(errors="replace").splitlines() for octets in (wanted, found))
    told = list(difflib.unified_diff(wanted, found, f"{name} wanted", f"{name} found", lineterm=""))
    return told[:40] or [f"{name}: other line ends than wanted"]


def left(case, folder):
    """What is wrong with the files that are left."""
    there = {str(path.relative_to(folder)): path for path in folder.rglob("*")}
    folders = {str(parent) for name in case.files for parent in pathlib.PurePath(name).parents}
    told = [f"{name} is left" for name in sorted(there.keys() - case.leaves.keys() - folders)]
    for name, wanted in case.leaves.items():
        if name not in there or not there[name].is_file():
            told.append(f"{name} is missing")
            continue
        found = there[name].read_bytes()
        if isinstance(wanted, tables.Partly):
            if not (found.startswith(wanted.begins) and found.endswith(wanted.ends)):
                told.append(f"{name} begins {found[:40]!r} and ends {found[-40:]!r}")
        elif found != wanted:
            told += differences(name, wanted, found)
    return told


def run(words, folder, into=None):
    """The status of a run in this folder, and what it wrote to standard output and error."""
    with tempfile.TemporaryFile() as caught, open(into, "wb") if into else caught as out:
        ended = subprocess.run(
            words,
            cwd=folder,
            stdin=subprocess.DEVNULL,
            stdout=out,
            stderr=subprocess.PIPE,
            timeout=LONGEST,
        )
        caught.seek(0)
        return ended.returncode, caught.read(), ended.stderr


def judge(program, case):
    """What is wrong with the run of this case."""
    with tempfile.TemporaryDirectory() as spot:
        folder = pathlib.Path(spot)
        for name, octets in case.files.items():
            (folder / name).parent.mkdir(parents=True, exist_ok=True)
            (folder / name).write_bytes(octets)
        try:
            status, stdout, stderr = run([program, *case.words], folder, case.stdout_to)
        except subprocess.TimeoutExpired:
            return [f"took more than {LONGEST} seconds"]
        told = left(case, folder)
    if status != case.status:
        told.append(f"status {status}, wanted {case.status}")
    if stdout != case.stdout:
        told += differences("standard output", case.stdout, stdout)
    if stderr:
        told.append(f"standard error: {stderr.decode(errors='replace')}")
    return told


def judge_program(name, *words):
    """What is wrong with the run of a program beside this file."""
    words = [sys.executable, "-B", tables.HERE / name, *words]
    status, stdout, stderr = run(words, ROOT)
    if status == 0:
        sys.stdout.write(stdout.decode(errors="replace"))  # what it skipped
        return []
    return [f"status {status}", *(stdout + stderr).decode(errors="replace").splitlines()]


def judge_tables(cases):
    """Where fixpoint.py computes other tables than a case expects in the end."""
    told, seen = [], 0
    for case in cases:
        answers, quiet, rows = case.stdout.rpartition(b" pull quiet\n")
        if case.words[:1] != ["serial"] or not quiet or b"work done" in rows:
            continue
        plan = case.files[case.words[1]]
        if "emulate" not in tomllib.loads(plan.decode()):
            continue
        seen += 1
        with tempfile.NamedTemporaryFile(suffix=".toml") as file:
            file.write(plan)
            file.flush()
            words = [sys.executable, "-B", tables.HERE / "fixpoint.py", file.name]
            status, found, stderr = run(words, ROOT)
        if (status, found) != (0, rows):
            told += [case.name, *differences("tables", rows, found + stderr)]
    return told if seen >= FEWEST_TABLES else [*told, f"only {seen} cases have such tables"]


def judge_script(script, cases):
    """Where the script doesn't give on what the program prints and its status, or says nothing on
    standard error of a status that isn't 0, or something of one that is."""
    told = []
    for case in cases:
        if case.name in ("no-words", "examples/q-emulated"):
            words = [EXAMPLES / word if word.endswith(".toml") else word for word in case.words]
            status, stdout, stderr = run([script, *words], ROOT)
            if (status, stdout, not stderr) != (case.status, case.stdout, case.status == 0):
                told.append(f"{case.name}: status {status}, wanted {case.status}")
                told += differences("standard output", case.stdout, stdout)
                told.append(f"standard error: {stderr.decode(errors='replace')}")
    return told


def main(program, script=None):
    cases, faults = tables.read()
    cases += examples()
    judged = [(name, [f"error: {reason}"]) for name, reason in faults]
    for case in cases:
        if case.needs and not pathlib.Path(case.needs).exists():
            print(f"{case.name}: skipped, since there is no {case.needs}")
            continue
        judged.append((case.name, judge(program, case)))
    judged.append(("fixpoint.py", judge_tables(cases)))
    judged.append(("boundary.py", judge_program("boundary.py", program)))
    judged.append(("generated.py", judge_program("generated.py", program)))
    judged.append(("cover.py", judge_program("cover.py", program)))
    judged.append(("launch.py", judge_program("launch.py")))
    judged.append(("tools.py", judge_program("tools.py")))
    judged.append(("makers.py", judge_program("makers.py")))
    judged.append(("peers.py", judge_program("peers.py", program)))
    if script:
        judged.append(("the script crystal", judge_script(script, cases)))
    for name, told in judged:
        if told:
            print("\n  ".join([f"{name}:", *told]))
    failed = sum(bool(told) for _, told in judged)
    print(f"{len(judged) - failed} passed, {failed} failed")
    return failed != 0


if __name__ == "__main__":
    sys.exit(main(*sys.argv[1:]))
