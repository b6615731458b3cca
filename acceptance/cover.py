#!/usr/bin/env python3
"""Demands that the parts of a network show together what an emulation of all its devices shows.

    acceptance/cover.py PROGRAM

Tries cover, merge and records-from-plan with the program: on a fabric of three pods, and on five
made up networks with policies and links that are down. The tables that are wanted are those of
fixpoint.py, and the records are what it computes of the outside devices alone. The jobs are run by
GNU parallel, or one after another where it is missing. Slurm isn't run: its batch file is read, and
one task of it is run by bash. Ends with status 1 and what was wrong where something was.
"""
import os
import pathlib
import re
import shlex
import shutil
import subprocess
import sys
import tempfile

sys.dont_write_bytecode = True
import fixpoint
from networks import device, fabric, made_up, network, text

ROOT = pathlib.Path(__file__).resolve().parent.parent
TOOLS = ["answers.py", "cover", "diff-tables", "merge", "network.py", "records-from-plan"]
NETWORKS = range(2, 7)  # the numbers of the made up ones
FEWEST_PARTS = 15  # that these have together
SCRIPT = 'version = 1\ncommand = [{ kind = "work", count = 1000000 }, { kind = "pull" }]\n'
QUIET = "1 work done\n2 pull quiet\n"


def wants(found, wanted, what):
    if found != wanted:
        raise AssertionError(f"{what}: {str(found)[:2000]!r}, wanted {str(wanted)[:2000]!r}")


class House:
    """A folder with the tools, and with the program as the script `crystal` beside them."""

    def __init__(self, program, spot):
        self.spot, self.program = pathlib.Path(spot), program
        (self.spot / "tools").mkdir()
        for tool in TOOLS:
            shutil.copy(ROOT / "tools" / tool, self.spot / "tools")
        played = self.spot / "crystal"
        played.write_text(f'#!/bin/sh\necho call >>"{spot}/calls"\n'
                          f'exec {shlex.quote(str(program))} "$@"\n')
        played.chmod(0o755)

    def write(self, name, text):
        path = self.spot / name
        path.write_text(text)
        return str(path)

    def run(self, tool, *words):
        """The status of a tool, and what it wrote to standard output and error."""
        words = [sys.executable, "-B", self.spot / "tools" / tool, *words]
        ended = subprocess.run(words, cwd=self.spot, capture_output=True, text=True, timeout=100)
        return ended.returncode, ended.stdout, ended.stderr

    def refused(self, tool, words, told, what):
        """That a tool ends with 1, prints nothing and says this on standard error."""
        status, stdout, stderr = self.run(tool, *words)
        wants((status, stdout), (1, ""), what)
        wants(stderr.rstrip("\n").rpartition(f"{tool}: ")[2], told, what)

    def calls(self):
        """How often the program was called since this was asked."""
        found = self.spot / "calls"
        lines = found.read_text().count("\n") if found.exists() else 0
        found.unlink(missing_ok=True)
        return lines


# ---- what is wanted


def grown(plan, names):
    """These devices and those of greater layers that are linked to them, again and again."""
    layer = {it["name"]: it["layer"] for it in plan["device"]}
    found, before = set(names), None
    while found != before:
        before = set(found)
        for link in plan["link"]:
            for one, other in ((link["a"], link["b"]), (link["b"], link["a"])):
                if one in found and layer[other] > layer[one]:
                    found.add(other)
    return found


def records(plan, emulated):
    """What the outside devices hold where these are away, which is nothing of another island."""
    outside = [
        it | {"peer": [peer for peer in it.get("peer", []) if peer["name"] not in emulated]}
        for it in plan["device"]
        if it["name"] not in emulated
    ]
    inside = [link for link in plan["link"] if not {link["a"], link["b"]} & emulated]
    found = []
    for it, rows in zip(outside, fixpoint.fixpoint({"device": outside, "link": inside})):
        for prefix in sorted(rows, key=fixpoint.by_prefix):
            sender, path, origin = rows[prefix]
            path = " ".join(map(str, path)) or "-"
            row = {"device": it["name"], "prefix": prefix, "path": path, "origin": origin}
            found.append(row if sender is None else row | {"from": outside[sender]["name"]})
    return found


# ---- trials


def judge_parts(plan, folder):
    """That the parts have all devices and the records that they need. How many there are."""
    parts, covered = sorted(folder.glob("part-*[0-9].toml")), set()
    for path in parts:
        part = fixpoint.read(path)
        emulated = grown(plan, part["must"])
        covered |= emulated
        wants(part.get("record", []), records(plan, emulated), f"records of {path.name}")
        wants([part["device"], part["link"]], [plan["device"], plan["link"]], "the network")
    wants(covered, set(plan["emulate"]), "the emulated devices")
    jobs = (folder / "jobs").read_text().splitlines()
    wants(jobs, [f"./run-part {path.stem}" for path in parts], "the jobs")
    return len(parts)


def run_jobs(folder):
    """Runs the jobs side by side, or one after another."""
    if shutil.which("parallel"):
        words = ["parallel", "--will-cite", "--jobs", "2", "-a", "jobs"]
        ended = subprocess.run(words, cwd=folder, capture_output=True, text=True, timeout=100)
        wants((ended.returncode, ended.stdout), (0, ""), f"the jobs: {ended.stderr}")
        return
    for job in (folder / "jobs").read_text().splitlines():
        subprocess.run(["bash", "-c", job], cwd=folder, check=True, timeout=100)


def covered(house, plan, name, *words):
    """The folder of a cover, whose parts were run, and the number of parts. The merged tables must
    be those of the fixpoint."""
    path, folder = house.write(f"{name}.toml", text(plan)), house.spot / name
    status, stdout, stderr = house.run("cover", path, "--out", folder, *words)
    wants((status, stderr), (0, ""), f"cover of {name}")
    count = judge_parts(plan, folder)
    wants(stdout.splitlines()[-1], f"{count} parts emulate all {len(plan['device'])} devices"
          if count > 1 else f"1 part emulates all {len(plan['device'])} devices", "the last line")
    wants(stdout.count(": certified emulated "), count, "parts that are certified")
    run_jobs(folder)
    merged = house.run("merge", "--plan", path, *sorted(folder.glob("*.tables")))
    wants(merged, (0, fixpoint.tables(plan), ""), f"the merged tables of {name}")
    return folder, count


def a_fabric_is_covered_by_pods(house):
    plan = fabric()
    folder, count = covered(house, plan, "fabric")
    wants(count, 3, "parts of the fabric")
    words = [house.program, "serial", "fabric.toml", house.write("s.toml", SCRIPT), "/dev/null"]
    ended = subprocess.run(words, cwd=house.spot, capture_output=True, text=True)
    wants(ended.stdout, QUIET + fixpoint.tables(plan), "the emulation of all devices")
    tables = sorted(map(str, folder.glob("*.tables")))
    house.refused("merge", ["--plan", "fabric.toml", *tables[:2]],
                  "5 of 17 devices have no table: p2r0 is one", "a part that is missing")
    house.write("all", ended.stdout)
    wants(house.run("merge", "--plan", "fabric.toml", "-o", "merged", *tables), (0, "", ""), "-o")
    wants(house.run("diff-tables", "all", "merged"), (0, "", ""), "merged beside the pull of all")
    wants(house.run("merge", "--plan", "fabric.toml", "merged", tables[0])[0], 0, "merged again")
    wants(covered(house, plan, "together", "--together", "2")[1], 2, "parts of two pods, or of one")


def a_batch_file_runs_a_task_for_each_job(house):
    folder, count = house.spot / "fabric", 3
    lines = (folder / "jobs.sbatch").read_text().splitlines()
    ended = subprocess.run(["bash", "-n", "jobs.sbatch"], cwd=folder, capture_output=True)
    wants((ended.returncode, ended.stderr), (0, b""), "bash -n")
    wants(lines[0], "#!/usr/bin/env bash", "its first line")
    given = dict(re.fullmatch(r"#SBATCH --([a-z-]+)=(\S+)", line).groups()
                 for line in lines if line.startswith("#SBATCH"))
    kinds = {"job-name": r"[\w-]+", "array": rf"1-{count}", "ntasks": "1", "cpus-per-task": "1",
             "mem": r"[1-9]\d*M", "time": r"\d\d:\d\d:\d\d", "output": r"part-%a\.log"}
    wants(given.keys(), kinds.keys(), "its options")
    for key, kind in kinds.items():
        wants(bool(re.fullmatch(kind, given[key])), True, f"--{key}={given[key]}")
    # sbatch reads no option behind the first command.
    last = max(n for n, line in enumerate(lines) if line.startswith("#SBATCH"))
    wants([line for line in lines[:last] if not line.startswith("#")], [], "words before options")
    (folder / "part-2.tables").rename(folder / "kept")
    task = os.environ | {"SLURM_ARRAY_TASK_ID": "2", "SLURM_SUBMIT_DIR": str(folder)}
    subprocess.run(["bash", folder / "jobs.sbatch"], cwd="/", env=task, check=True, timeout=100)
    wants((folder / "part-2.tables").read_text(), (folder / "kept").read_text(), "task 2")


def made_up_networks_are_covered(house):
    parts = 0
    for seed in NETWORKS:
        plan = made_up(seed)
        parts += covered(house, plan, f"net-{seed}", "--by", "device")[1]
    wants(parts >= FEWEST_PARTS, True, f"{parts} parts are enough")
    covered(house, plan, "chosen", "--from", "d3,d1", "d0")
    house.refused("cover", ["chosen.toml", "--out", "chosen"], "chosen is there already", "again")


def devices_are_added_until_it_is_certified(house):
    two = fixpoint.read(ROOT / "examples/q-emulated.toml")
    two["device"].append(device("t3", 1, 65103, "10.0.0.3", ["10.1.2.0/24"]))
    two["link"] += [{"a": "t3", "b": leaf} for leaf in ("l1", "l2")]
    two["emulate"].append("t3")
    added = [
        "  with t2 because origins island t2 prefix 10.1.2.0/24: t2 t3",
        "  with t3 because origins island t3 prefix 10.1.2.0/24: t3 t2",
    ]
    trials = (
        (two, "t1", ["t1", "t2", "t3"], added),
        (network([1, 2, 3], ["ab", "bc"]), "a,c", ["a", "b", "c"],
         ["  with b because facing emulated island b: a 1 c 3"]),
        (network([1, 2, 3], ["ab", "bc", "ca"]), "a", ["a", "b", "c"],
         ["  with b c because facing outside island b: b 2 c 3"]),
    )
    for number, (plan, names, must, told) in enumerate(trials):
        path = house.write("added.toml", text(plan))
        status, stdout, _ = house.run("cover", path, "--out", f"added-{number}", "--from", names)
        lines = [line for line in stdout.splitlines() if line.startswith(" ")]
        wants((status, lines), (0, told), f"what is added to {names}")
        part = fixpoint.read(house.spot / f"added-{number}/part-1.toml")
        wants(part["must"], must, "from what it grows")


def a_path_has_255_numbers_at_most(house):
    for copies, rows in ((253, 3), (254, 2)):
        plan = network([9, 1, 2, 3], ["ab", "bc", "cd"])
        for it in plan["device"][2:]:
            it["own"] = []
        plan["device"][1]["peer"] = [{"name": "c", "prepend": copies}]
        wants(len(records(plan, {"a"})), rows, f"records with {copies} copies")
        path = house.write("long.toml", text(plan))
        made = house.run("records-from-plan", path, "-o", "made", "--emulate", "a")
        wants(made, (0, "", ""), f"a plan with {copies} copies")
        found = fixpoint.read(house.spot / "made")["record"]
        wants(found, records(plan, {"a"}), f"records with {copies} copies")


def merge_refuses_what_does_not_fit(house):
    q = fixpoint.read(ROOT / "examples/q-emulated.toml")
    path, good = house.write("q.toml", text(q)), fixpoint.tables(q)
    row = "10.1.2.0/24 from l1 path 65201 65102 origin igp"
    other = row.replace("l1", "l2")
    a, b = house.write("a", QUIET + good), house.write("b", QUIET + good.replace(row, other, 1))
    wants(house.run("merge", "--plan", path, a, a), (0, good, ""), "twice the same")
    trials = (
        ([b], f"two parts disagree: t1 10.1.2.0/24: {row[12:]} in {a}, {other[12:]} in {b}"),
        ([house.write("c", QUIET + good.replace(row + "\n", "", 1))],
         f"two parts disagree: t1 10.1.2.0/24: {row[12:]} in {a}, none in {house.spot}/c"),
        ([house.write("d", QUIET + "table t9\n")],
         f"{house.spot}/d has a table of t9, and {path} no such device"),
        ([house.write("e", "1 work done\n2 pull again device t1\n")],
         f"{house.spot}/e: pull 2 was answered again device t1"),
        ([house.write("f", QUIET + good + "3 pull again mailbox t1 l1\n")],
         f"{house.spot}/f: pull 3 was answered again mailbox t1 l1"),
        ([house.write("g", QUIET + good[:-1])], f"{house.spot}/g ends in the middle of a line"),
        ([house.write("h", "1 work done\n")], f"{house.spot}/h has no pull"),
        ([house.write("j", QUIET + good.replace(row, other, 1) + "3 pull quiet\n" + good),
          house.write("k", QUIET + good + "3 pull quiet\ntable t9\n")],
         f"{house.spot}/k has a table of t9, and {path} no such device"),
        ([house.write("i", "refused facing\n")],
         f"{house.spot}/i, line 1: this is no line of an answer: refused facing"),
        ([f"{house.spot}/absent"], f"{house.spot}/absent: No such file or directory"),
    )
    for words, told in trials:
        house.refused("merge", ["--plan", path, a, *words], told, f"merge of {words}")
    older = house.write("l", QUIET + good + "3 pull quiet\n")
    told = "5 of 5 devices have no table: t1 is one"
    house.refused("merge", ["--plan", path, older], told, "an older pull")


def a_plan_gets_its_records(house):
    q = fixpoint.read(ROOT / "examples/q-emulated.toml")
    del q["emulate"]
    q["device"].append(device("t3", 1, 65103, "10.0.0.3", ["10.1.3.0/24"]))
    q["link"].append({"a": "t2", "b": "t3"})
    q["record"] = [{"device": "t2", "prefix": "10.9.0.0/16", "path": "-", "origin": "igp"}]
    path = house.write("q.toml", text(q))
    own = {"path": "-", "origin": "igp"}
    wanted = [
        {"device": "t2", "prefix": "10.1.2.0/24"} | own,
        {"device": "t2", "prefix": "10.1.3.0/24", "path": "65103", "origin": "igp", "from": "t3"},
        {"device": "t3", "prefix": "10.1.2.0/24", "path": "65102", "origin": "igp", "from": "t2"},
        {"device": "t3", "prefix": "10.1.3.0/24"} | own,
    ]
    house.calls()
    for key in ("must", "emulate"):
        words = ["-o", "made", "--unchecked", f"--{key}", "t1"]
        wants(house.run("records-from-plan", path, *words), (0, "", ""), key)
        wants(house.calls(), 0, "calls of the program")
        wants(fixpoint.read(house.spot / "made").get(key), ["t1"], key)
    wants(house.run("records-from-plan", path, "-o", "made", "--must", "t1"), (0, "", ""), "-o")
    wants(house.calls(), 1, "calls of the program")
    made = fixpoint.read(house.spot / "made")
    wants(made.pop("record"), wanted, "the records")
    wants(made, {"version": 1, "must": ["t1"], "device": q["device"], "link": q["link"]}, "a plan")
    again = house.run("records-from-plan", "made")
    wants(again, (0, (house.spot / "made").read_text(), ""), "its own choice")


def a_plan_without_a_safe_boundary_is_refused(house):
    q = (ROOT / "examples/q-emulated.toml").read_text()
    path = house.write("q.toml", q)
    house.refused("records-from-plan", [path, "--emulate", "t1", "l1", "s1"],
                  "refused facing emulated island t2: t1 65101 l1 65201", "a boundary")
    house.refused("records-from-plan", [path, "--must", "t9"], "there is no device t9", "a name")
    nested = house.write("nested.toml", q.replace('emulate = ["t1"', 'emulate = [["t1"]', 1))
    house.refused("records-from-plan", [nested], "there is no device ['t1']", "no name")
    trials = (
        ("layer = 1", "layer = 1\nzone = 2", "no device has the key zone"),
        ("version = 1", "version = 3", "a plan of version 3 isn't known here"),
        ('id = "10.0.0.1"', 'id = "10.0.0"', None),
        ("asn = 65101", "", None),
        ("asn = 65101", 'asn = "65101"', "bad text made.toml: shape device[0].asn"),
        ('name = "t2"', 'name = "t1"', None),
        ("asn = 65101", "asn = 1979-05-27", None),
        ("asn = 65101", 'asn = 65101\npeer = [{ name = "l1", prepend = 999999999999 }]', None),
        ("asn = 65101", 'asn = 65101\npeer = [{ name = "l1", export = ["permit"] }]', None),
        ('own = ["10.1.1.0/24"]', 'own = ["10.1.1.0/40"]', None),
    )
    for old, new, told in trials:
        wants(old in q, True, f"{old} is there")
        path = house.write("bad.toml", q.replace(old, new, 1))
        for tool, words in (("records-from-plan", []), ("cover", ["--out", "bad"])):
            status, stdout, stderr = house.run(tool, path, *words)
            wants((status, stdout, "Traceback" in stderr), (1, "", False), f"{tool} of {new}")
            if told and tool != "cover":
                wants(stderr.rstrip("\n").endswith(f"{tool}: {told}"), True, f"{stderr} of {new}")
        wants(sorted(house.spot.glob("bad*")), [house.spot / "bad.toml"], "what is left")


def main(program):
    failed = False
    with tempfile.TemporaryDirectory() as spot:
        house = House(program, spot)
        if not shutil.which("parallel"):
            print("cover.py: the jobs run one after another, since there is no parallel; "
                  "Debian's package parallel has it")
        for trial in (
            a_fabric_is_covered_by_pods,
            a_batch_file_runs_a_task_for_each_job,
            made_up_networks_are_covered,
            devices_are_added_until_it_is_certified,
            a_path_has_255_numbers_at_most,
            merge_refuses_what_does_not_fit,
            a_plan_gets_its_records,
            a_plan_without_a_safe_boundary_is_refused,
        ):
            try:
                trial(house)
            except (AssertionError, subprocess.SubprocessError) as error:
                print(f"{trial.__name__}: {error}")
                failed = True
    return failed


if __name__ == "__main__":
    sys.exit(main(pathlib.Path(sys.argv[1]).resolve()))
