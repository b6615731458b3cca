#!/usr/bin/env python3
"""Demands of made up plans, with policies and links that are down, the tables of fixpoint.py.

    acceptance/generated.py PROGRAM [PLANS [FIRST]]

Each plan is made from a number, from FIRST (0) on. Its few devices have few AS numbers, prefixes
that cover one another, and lists that let a part of them through, so that loops, longer paths and
routes of equal length are common. All are emulated, and the program runs them until they are quiet.
Ends with status 1 and the number and the plan where it shows other tables.
"""
import json
import pathlib
import random
import subprocess
import sys
import tempfile

sys.dont_write_bytecode = True
import fixpoint

PLANS = 60
PREFIXES = ["0.0.0.0/0", "10.0.0.0/8", "10.1.0.0/16", "10.1.1.0/24", "10.1.1.128/25", "10.2.0.0/16"]
SCRIPT = 'version = 1\ncommand = [{ kind = "work", count = 1000000 }, { kind = "pull" }]\n'
QUIET = "1 work done\n2 pull quiet\n"


def entry(draw):
    """An entry of a prefix list, which often leaves out one of the lengths, or both."""
    prefix = draw.choice(PREFIXES)
    length = int(prefix.partition("/")[2])
    least, greatest = sorted((draw.randint(length, 32), draw.randint(length, 32)))
    text = draw.choice(["permit", "permit", "deny"]) + " " + prefix
    text += draw.choice(["", f" ge {least}"])
    return text + draw.choice(["", f" le {greatest}"])


def peer(draw, name):
    """What a device's plan says of this peer."""
    found = {"name": name}
    for key in ("import", "export"):
        if draw.random() < 0.5:
            found[key] = [entry(draw) for _ in range(draw.randint(0, 3))]
            if draw.random() < 0.7:
                found[key].append("permit 0.0.0.0/0 le 32")
    if draw.random() < 0.6:
        found["prepend"] = draw.choice([0, 1, 1, 2, 3, 120, 253, 254])
    return found


def made(seed):
    """The plan of this number."""
    draw = random.Random(seed)
    names = [f"d{n}" for n in range(draw.randint(2, 8))]
    devices = []
    for n, name in enumerate(names):
        own = draw.sample(PREFIXES, draw.randint(0, 3))
        own = [prefix + draw.choice(["", " igp", " egp", " incomplete"]) for prefix in own]
        peers = [peer(draw, other) for other in names if draw.random() < 0.4]
        address = f"10.0.{draw.randint(0, 255)}.{n}"
        asn = draw.randint(1, len(names))
        devices.append(
            {"name": name, "layer": n, "asn": asn, "id": address, "own": own, "peer": peers}
        )
    links = []
    for n, one in enumerate(devices):
        for other in devices[:n]:
            if one["asn"] != other["asn"] and draw.random() < 0.6:
                ends = dict(zip("ab", draw.sample([one["name"], other["name"]], 2)))
                links.append(ends | draw.choice([{}, {}, {"up": True}, {"up": False}]))
    return {"emulate": names, "device": devices, "link": links}


def value(found):
    """This as TOML, which writes all but tables as JSON does."""
    if isinstance(found, dict):
        return "{ " + ", ".join(f"{key} = {value(item)}" for key, item in found.items()) + " }"
    if isinstance(found, list):
        return "[" + ", ".join(map(value, found)) + "]"
    return json.dumps(found)


def text(plan):
    """The text of a plan."""
    lines = ["version = 1", f"emulate = {value(plan['emulate'])}"]
    for name in ("device", "link"):
        for table in plan[name]:
            lines += [f"[[{name}]]"] + [f"{key} = {value(item)}" for key, item in table.items()]
    return "".join(line + "\n" for line in lines)


def main(program, plans=PLANS, first=0):
    with tempfile.TemporaryDirectory() as spot:
        pathlib.Path(spot, "s.toml").write_text(SCRIPT)
        for seed in range(int(first), int(first) + int(plans)):
            plan = made(seed)
            pathlib.Path(spot, "q.toml").write_text(text(plan))
            words = [program, "serial", "q.toml", "s.toml", "t.txt"]
            ended = subprocess.run(
                words, cwd=spot, stdin=subprocess.DEVNULL, capture_output=True, text=True
            )
            wanted = QUIET + fixpoint.tables(plan)
            if (ended.returncode, ended.stdout, ended.stderr) != (0, wanted, ""):
                sys.exit(
                    f"plan {seed}: status {ended.returncode}\n{text(plan)}"
                    f"wanted\n{wanted}found\n{ended.stdout}{ended.stderr}"
                )


if __name__ == "__main__":
    main(*sys.argv[1:])
