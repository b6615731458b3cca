#!/usr/bin/env python3
"""Demands that a part of a fabric behind its boundary computes what the whole fabric computes.

    acceptance/boundary.py PROGRAM

The fabric has three pods (RFC 7938, 3.2 and 5.2.1): each rack has an AS number of its own and one
or two prefixes, the leaves of a pod share an AS number, and so do the spines. From one rack grow
its pod's leaves and the spines. The other devices are outside, with records of what they hold where
the emulated ones are away. The program runs this plan, and the plan in which all devices are
emulated and nothing is recorded. Both must end quiet, and each device that is emulated in the first
must have the same table in both. Ends with status 1 and the reason where it isn't so.
"""
import json
import pathlib
import subprocess
import sys
import tempfile

sys.dont_write_bytecode = True
import fixpoint

PODS, LEAVES, RACKS, SPINES = 3, 2, 2, 2
SCRIPT = 'version = 1\ncommand = [{ kind = "work", count = 1000000 }, { kind = "pull" }]\n'
QUIET = "1 work done\n2 pull quiet\n"
GROWN = ["p0r0", "p0l0", "p0l1", "s0", "s1"]


def fabric():
    """The devices and links. Each rack is linked to all leaves of its pod, and each leaf to all
    spines."""
    devices, links = [], []

    def add(name, layer, asn, own):
        address = f"172.16.0.{len(devices) + 1}"
        device = {"name": name, "layer": layer, "asn": asn, "id": address, "own": own}
        devices.append(device)

    for pod in range(PODS):
        for rack in range(RACKS):
            k = pod * RACKS + rack
            add(f"p{pod}r{rack}", 1, 4200010000 + k, [f"10.{n}.{k}.0/24" for n in range(1 + k % 2)])
        for leaf in range(LEAVES):
            add(f"p{pod}l{leaf}", 2, 4200000001 + pod, [])
            links += [{"a": f"p{pod}r{rack}", "b": f"p{pod}l{leaf}"} for rack in range(RACKS)]
            links += [{"a": f"p{pod}l{leaf}", "b": f"s{spine}"} for spine in range(SPINES)]
    for spine in range(SPINES):
        add(f"s{spine}", 3, 4200000000, [])
    return devices, links


def records(devices, links):
    """What the devices that aren't in GROWN hold where those are away."""
    outside = [device for device in devices if device["name"] not in GROWN]
    inside = [link for link in links if not {link["a"], link["b"]} & set(GROWN)]
    found = []
    for device, rows in zip(outside, fixpoint.fixpoint({"device": outside, "link": inside})):
        for prefix, (sender, path, origin) in rows.items():
            path = " ".join(map(str, path)) or "-"
            record = {"device": device["name"], "prefix": prefix, "path": path, "origin": origin}
            found.append(record if sender is None else record | {"from": outside[sender]["name"]})
    return found


def text(front, **tables):
    """A plan. Strings, numbers and lists of strings are written in TOML as in JSON."""
    lines = ["version = 1", front]
    for name, entries in tables.items():
        for entry in entries:
            lines.append(f"[[{name}]]")
            lines += [f"{key} = {json.dumps(value)}" for key, value in entry.items()]
    return "".join(line + "\n" for line in lines)


def run(program, plan):
    """The rows of each device's table in the answer to the last pull, which must be quiet."""
    with tempfile.TemporaryDirectory() as spot:
        pathlib.Path(spot, "q.toml").write_text(plan)
        pathlib.Path(spot, "s.toml").write_text(SCRIPT)
        words = [program, "serial", "q.toml", "s.toml", "t.txt"]
        ended = subprocess.run(
            words, cwd=spot, stdin=subprocess.DEVNULL, capture_output=True, text=True
        )
    if ended.returncode != 0 or ended.stderr or not ended.stdout.startswith(QUIET):
        sys.exit(f"status {ended.returncode}: {ended.stdout[:200]}{ended.stderr}")
    found = {}
    for line in ended.stdout[len(QUIET):].splitlines():
        if line.startswith("table "):
            rows = found.setdefault(line.removeprefix("table "), [])
        else:
            rows.append(line)
    return found


def main(program):
    devices, links = fabric()
    names = [device["name"] for device in devices]
    kept = records(devices, links)
    part = run(program, text('must = ["p0r0"]', device=devices, link=links, record=kept))
    whole = run(program, text(f"emulate = {json.dumps(names)}", device=devices, link=links))
    if list(part) != GROWN or list(whole) != names:
        sys.exit(f"emulated are {list(part)} and {list(whole)}")
    for name in GROWN:
        if part[name] != whole[name]:
            sys.exit(f"{name} has {part[name]} in part and {whole[name]} in the whole")
    # What the records say matters: the rack reaches each prefix, also those of the other pods.
    reached = {row.split()[0] for row in part["p0r0"]}
    missing = {prefix for device in devices for prefix in device["own"]} - reached
    if missing:
        sys.exit(f"p0r0 has no route to {sorted(missing)}")


main(sys.argv[1])
