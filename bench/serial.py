"""Called by serial.sh with its words. See there."""
import argparse
import fcntl
import hashlib
import os
import pathlib
import subprocess
import sys
import tempfile

ROOT = pathlib.Path(__file__).resolve().parent.parent
sys.dont_write_bytecode = True  # so no __pycache__ is left beside the tables of cases
sys.path.insert(0, str(ROOT / "acceptance"))
import fixpoint
import made
import plan as plans

PROGRAM = ROOT / "crates" / "crystal" / "out" / "crystal"
WORKS = 20  # each lets a million events happen, so there are enough for every shape
MILLION = '  { kind = "work", count = 1000000 },\n'
SCRIPT = f'version = 1\ncommand = [\n{MILLION * WORKS}  {{ kind = "pull" }},\n]\n'
DONE = "".join(f"{k} work done\n" for k in range(1, WORKS + 1)) + f"{WORKS + 1} pull quiet\n"
RUNS, LONG = 3, 10  # so many runs, but after one of so many seconds no other


# ---- shapes


def fabric(pods, leaves, racks, spines, shift):
    """A fabric whose devices are all emulated. The racks, each with an AS number and a prefix of
    its own, are linked to all leaves of their pod, and the leaves to all spines."""
    devices = []
    for pod in range(pods):
        for rack in range(racks):
            k = pod * racks + rack
            own = [plans.prefix_of((shift + k) % 65536)]
            devices.append((f"p{pod}r{rack}", 1, 4200010000 + k, own))
        devices += [(f"p{pod}l{leaf}", 2, 4200000001 + pod) for leaf in range(leaves)]
    devices += [(f"s{spine}", 3, 4200000000) for spine in range(spines)]
    ends = [
        (f"p{p}r{r}", f"p{p}l{l}") for p in range(pods) for r in range(racks) for l in range(leaves)
    ]
    ends += [
        (f"p{p}l{l}", f"s{s}") for p in range(pods) for l in range(leaves) for s in range(spines)
    ]
    text = [f"version = 1\nemulate = {plans.listed(device[0] for device in devices)}\n"]
    text += [plans.device_text(n, *device) for n, device in enumerate(devices, 1)]
    return "".join(text + [plans.link_text(a, b) for a, b in ends])


def speakers(*shape):
    """A fabric of which one rack, the leaves of its pod and the spines are emulated."""
    return plans.recorded_plan(shape)[0]


# What a shape is made of, and whether acceptance/fixpoint.py computes its tables: of the last it
# would take minutes. The pair, the star and the last are worst for what a session owes, and for how
# the next event is found: a session with very many prefixes, a device with very many sessions, and
# very many records.
SHAPES = {
    "fabric-88": (fabric, (4, 4, 16, 8, 0), True),
    "fabric-168": (fabric, (8, 4, 16, 8, 0), True),
    "fabric-336": (fabric, (8, 8, 32, 16, 0), True),
    "fabric-656": (fabric, (16, 8, 32, 16, 0), True),
    "speakers-656": (speakers, (16, 8, 32, 16, 3), True),
    "pair": (lambda count: made.pair(made.slash_24s(count)), (16384,), True),
    "star": (made.star, (499, 499), True),
    "speakers-1888": (speakers, (36, 4, 48, 16, 3), False),
}


# ---- runs


def peak(process):
    """The peak memory of a process that runs, in octets."""
    for line in pathlib.Path(f"/proc/{process}/status").read_text().splitlines():
        if line.startswith("VmHWM:"):
            return int(line.split()[1]) * 1024
    sys.exit("the peak memory can't be read: the run has ended before")


def measured(program, spot):
    """CPU seconds, peak octets and standard output of a run. All texts are made before the first is
    put, so the peak is read when the first octet comes. The pipe is made so narrow that the answers
    don't go into it, and the run lasts until then. What the system says of a run that has ended
    would count this one's memory too, from which it was started."""
    words = [program, "serial", "plan.toml", "script.toml", "trace.txt"]
    child = subprocess.Popen(words, cwd=spot, stdin=subprocess.DEVNULL, stdout=subprocess.PIPE)
    fcntl.fcntl(child.stdout.fileno(), fcntl.F_SETPIPE_SZ, 4096)
    front = os.read(child.stdout.fileno(), 1)
    octets = peak(child.pid) if front else 0
    text = (front + child.stdout.read()).decode()
    _, status, usage = os.wait4(child.pid, 0)
    child.returncode = os.waitstatus_to_exitcode(status)
    if child.returncode != 0:
        sys.exit(f"{program} ends with status {child.returncode}: {text[:200]}")
    return usage.ru_utime + usage.ru_stime, octets, text


def trace_of(spot):
    """The checksum of the trace, and how many events it has: one a line, but for the first and for
    the mark of each command."""
    with open(spot / "trace.txt", "rb") as trace:
        checksum = hashlib.file_digest(trace, "sha256").hexdigest()
        trace.seek(0)
        lines = sum(part.count(b"\n") for part in iter(lambda: trace.read(1 << 20), b""))
    return checksum, lines - 1 - (WORKS + 1)


def best(program, spot):
    """CPU seconds and peak octets of the best of some runs, the answers, the checksum of the trace
    and the number of events."""
    (spot / "trace.txt").unlink(missing_ok=True)  # another program may have left it
    runs = []
    while len(runs) < RUNS and not (runs and runs[0][0] > LONG):
        runs.append(measured(program, spot))
    if not (spot / "trace.txt").exists():
        sys.exit(f"{program} writes no trace")
    seconds, octets, text = min(runs)
    return seconds, octets, text, *trace_of(spot)


def check(wanted, found):
    """Ends the bench where answers differ from those that are wanted."""
    if found == wanted:
        return
    wanted, found = wanted.splitlines(), found.splitlines()
    at = [n for n, (a, b) in enumerate(zip(wanted, found)) if a != b]
    n = at[0] if at else min(len(wanted), len(found))
    sys.exit(f"line {n + 1} of answers: wanted {wanted[n:n + 1]}, found {found[n:n + 1]}")


def told(name, seconds, octets, events):
    each = f"{seconds / events * 1e6:9.3f} us an event"
    print(f"  {name:8} {seconds:9.3f} s CPU {each} {octets / 1e6:9.1f} MB", flush=True)


def run_until_quiet(program, beside, name):
    """Runs a shape until it is quiet, and prints what it takes."""
    make, words, whole = SHAPES[name]
    with tempfile.TemporaryDirectory() as spot:
        spot = pathlib.Path(spot)
        (spot / "plan.toml").write_text(make(*words))
        (spot / "script.toml").write_text(SCRIPT)
        plan = fixpoint.read(spot / "plan.toml")
        a, m, answers, trace, events = best(program, spot)
        if not answers.startswith(DONE):
            sys.exit(f"{name} isn't quiet after {WORKS} million events")
        if whole:
            check(DONE + fixpoint.tables(plan), answers)
        emulated = f"{len(plan['device'])} devices, {len(plan['emulate'])} emulated"
        linked = f"{len(plan['link'])} links, {len(plan.get('record', []))} records"
        as_said = ", as the fixpoint of the whole network" if whole else ""
        print(f"{name}: {emulated}, {linked}; {events} events; quiet{as_said}")
        told("crystal", a, m, events)
        if beside:
            b, n, others, other, _ = best(beside, spot)
            if other != trace:
                sys.exit(f"{name}: the trace has checksum {trace}, and beside it {other}")
            check(others, answers)
            told("beside", b, n, events)
            same = f"the same trace, {trace[:16]}"
            print(f"  ratio    {a / b:9.2f} {m / n:40.2f}    {same}", flush=True)


def main():
    words = argparse.ArgumentParser(prog="bench/serial.sh", allow_abbrev=False)
    words.add_argument("--beside", metavar="PROGRAM", type=pathlib.Path)
    words.add_argument("--only", metavar="SHAPE", choices=SHAPES, help=", ".join(SHAPES))
    words.add_argument("--program", metavar="PROGRAM", type=pathlib.Path, default=PROGRAM)
    asked = words.parse_args()
    for program in (asked.program, asked.beside):
        if program and not os.access(program, os.X_OK):
            made_by = "; ./build proves and builds it" if program == PROGRAM else ""
            sys.exit(f"there is no program {program}{made_by}")
    for name in [asked.only] if asked.only else SHAPES:
        run_until_quiet(asked.program.resolve(), asked.beside and asked.beside.resolve(), name)


if __name__ == "__main__":
    main()
