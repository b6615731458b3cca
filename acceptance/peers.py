#!/usr/bin/env python3
"""Runs FRR's bgpd and BIRD on networks, and demands that their tables are those of the program.

    acceptance/peers.py PROGRAM [--all]

Each network is written as a lab for both daemons (labs.py). plan-from-frr and plan-from-bird have
to make its plan of it again, the program has to show of that plan the tables that fixpoint.py
computes, and so have the daemons in the end. They are plain processes that speak on addresses of
loopback; all that they write lies in a folder of their own, and each ends after some time by
itself. Without --all there are few networks. What isn't installed is skipped with a line, and so is
all of it where no address of loopback can be bound. Ends with status 1 and what was wrong where
something was.
"""
import difflib
import itertools
import json
import os
import pathlib
import random
import re
import shutil
import socket
import subprocess
import sys
import tempfile
import time
import tomllib

sys.dont_write_bytecode = True
import fixpoint
import generated
import labs

ROOT = pathlib.Path(__file__).resolve().parent.parent
RANDOM, FEW = 20, 3  # networks that are made up
AT_ONCE = 40  # daemons
LONGEST = 60  # seconds until tables are equal
BOUND = 90  # seconds after which a daemon is ended
APART = 1.0  # seconds between the two looks at which tables have to be equal
MOST_PREPENDED = 3
QUIET = "1 work done\n2 pull quiet\n"
NETWORK = random.Random(os.getpid()).randint(32, 250)  # the second number of this run's addresses


def fabric():
    """A fabric of two pods with two leaves and two racks each, below two spines."""
    devices, links = [], []
    for pod in range(2):
        leaves = [f"p{pod}l{n}" for n in range(2)]
        for n in range(2):
            rack = f"p{pod}r{n}"
            prefix = f"10.{pod}.{n}.0/24"
            devices.append({"name": rack, "layer": 1, "asn": 65100 + 2 * pod + n, "own": [prefix]})
            devices[-1]["peer"] = [{"name": leaves[0], "prepend": n}]
            links += [{"a": rack, "b": leaf} for leaf in leaves]
        devices += [{"name": leaf, "layer": 2, "asn": 65200 + pod} for leaf in leaves]
        links += [{"a": leaf, "b": f"s{n}"} for leaf in leaves for n in range(2)]
    devices += [{"name": f"s{n}", "layer": 3, "asn": 65000} for n in range(2)]
    for n, device in enumerate(devices, 1):
        device["id"] = f"172.16.0.{n}"
    return {"device": devices, "link": links}


def usable(plan):
    """The plan with all devices emulated, and without what a configuration doesn't say: devices
    without links, policies for devices that aren't linked, entries that are there twice, lists
    without entries, and so many numbers in front that a daemon would need a second segment."""
    plan["device"] = [it for it in plan["device"] if labs.linked(plan, it["name"])]
    for device in plan["device"]:
        linked = {other for other, _ in labs.linked(plan, device["name"])}
        device["peer"] = [it for it in device.get("peer", []) if it["name"] in linked]
        for peer in device["peer"]:
            for key in ("import", "export"):
                if key in peer:
                    peer[key] = list(dict.fromkeys(peer[key])) or ["deny 0.0.0.0/0 le 32"]
            peer["prepend"] = min(peer.get("prepend", 0), MOST_PREPENDED)
    return plan | {"emulate": [device["name"] for device in plan["device"]]}


def networks(is_all):
    for name, example in (("five devices", "q-emulated"), ("five with policies", "q-policies")):
        with open(ROOT / f"examples/{example}.toml", "rb") as file:
            yield name, tomllib.load(file)
    yield "a fabric of two pods", fabric()
    linked = (seed for seed in itertools.count() if generated.made(seed)["link"])
    for seed in itertools.islice(linked, RANDOM if is_all else FEW):
        yield f"random network {seed}", generated.made(seed)


def meant(plan):
    """What a plan says, in one form."""
    devices = []
    for device in plan["device"]:
        peers = {}
        for peer in device.get("peer", []):
            lists = [
                peer.get(key) and [*map(fixpoint.entry, peer[key])] for key in ("import", "export")
            ]
            said = *lists, peer.get("prepend", 0)
            if said != (None, None, 0):
                peers[peer["name"]] = said
        plain = [device[key] for key in ("name", "layer", "asn", "id")]
        devices.append((*plain, fixpoint.owns(device), peers))
    return plan["emulate"], devices, labs.links(plan)


class Lab:
    """A network with one kind of daemons."""

    def __init__(self, name, plan, number, spot):
        self.name, self.plan = f"{name}, {self.WORD}", plan
        self.folder = pathlib.Path(spot, str(number))
        self.folder.mkdir()
        self.names = [device["name"] for device in plan["device"]]
        self.address = lambda name: f"127.{NETWORK}.{number}.{1 + self.names.index(name)}"
        self.daemons, self.wanted = [], fixpoint.tables(plan)
        (self.folder / "lab.clab.yml").write_text(labs.topology(plan, self.BOUND))
        for device in plan["device"]:
            text = self.WRITE(plan, device, self.address)
            (self.folder / f"{device['name']}.conf").write_text(text)

    def read_back(self, program):
        """What is wrong with the plan that is made of the lab, and with the tables of that."""
        words = [sys.executable, "-B", ROOT / "tools" / self.TOOL, "--all", "lab.clab.yml"]
        ended = subprocess.run(words, cwd=self.folder, capture_output=True, text=True, timeout=60)
        if ended.returncode:
            return [f"{self.TOOL} ends with {ended.returncode}", *ended.stderr.splitlines()]
        if meant(tomllib.loads(ended.stdout)) != meant(self.plan):
            return [f"{self.TOOL} makes another plan", *ended.stdout.splitlines()]
        (self.folder / "q.toml").write_text(ended.stdout)
        (self.folder / "s.toml").write_text(generated.SCRIPT)
        words = [program, "serial", "q.toml", "s.toml", "t.txt"]
        ended = subprocess.run(words, cwd=self.folder, capture_output=True, text=True, timeout=60)
        found = ended.returncode, ended.stdout, ended.stderr
        if found != (0, QUIET + self.wanted, ""):
            return [f"the program ends with {ended.returncode}", *ended.stdout.splitlines()]
        return []

    def start(self):
        for name in self.names:
            words = ["timeout", "--kill-after=2", str(BOUND), *map(str, self.command(name))]
            with open(self.folder / f"{name}.log", "wb") as log:
                self.daemons.append(
                    subprocess.Popen(words, stdin=subprocess.DEVNULL, stdout=log, stderr=log)
                )

    def ended(self):
        """What those daemons said last that ended by themselves."""
        told = []
        for name, daemon in zip(self.names, self.daemons):
            if daemon.poll() is not None:
                said = (self.folder / f"{name}.log").read_text(errors="replace").splitlines()
                told += [f"{self.name}: {name} ended with {daemon.returncode}", *said[-9:]]
        return told

    def end(self):
        for daemon in self.daemons:
            daemon.terminate()  # which it hands on
        for daemon in self.daemons:
            try:
                daemon.wait(5)
            except subprocess.TimeoutExpired:
                daemon.kill()
                daemon.wait()

    def tables(self):
        """The tables of all devices, or why there are none yet."""
        lines = []
        for name in self.names:
            try:
                rows = self.rows(name)
            except (OSError, ValueError) as error:
                return f"{name}: {error}"
            lines.append(f"table {name}")
            for prefix in sorted(rows, key=fixpoint.by_prefix):
                source, path, origin = rows[prefix]
                lines.append(f"{prefix} {source} path {path or '-'} origin {origin}")
        return "".join(line + "\n" for line in lines)

    def ask(self, path, words, ends):
        """What a daemon answers at its socket, up to octets that match."""
        with socket.socket(socket.AF_UNIX) as link:
            link.settimeout(5)
            link.connect(str(self.folder / path))
            link.sendall(words)
            octets = b""
            while not re.search(ends, octets, re.S):
                more = link.recv(1 << 16)
                if not more:
                    raise ValueError("the daemon ends its answer early")
                octets += more
        return octets


class Frr(Lab):
    WORD, TOOL, BOUND, WRITE = "FRR", "plan-from-frr", "/etc/frr/frr.conf", staticmethod(labs.frr)
    PROGRAM, PACKAGE, VERSIONS = "/usr/lib/frr/bgpd", "frr", ((8, 4), (99,))

    def command(self, name):
        """bgpd without zebra, so that no route gets into the kernel."""
        (self.folder / name).mkdir()
        words = [self.PROGRAM, "--no_zebra", "--skip_runas", "--log", "stdout"]
        words += ["-f", self.folder / f"{name}.conf", "-i", self.folder / name / "pid"]
        words += ["-z", self.folder / name / "zebra", "--vty_socket", self.folder / name]
        return [*words, "-P", 0, "-l", self.address(name), "-p", labs.PORT]

    def rows(self, name):
        ask = b"show bgp ipv4 unicast json\0"
        answer = self.ask(f"{name}/bgpd.vty", ask, rb"\0\0\0.$")[:-4]
        by_address = {self.address(it): f"from {it}" for it in self.names}
        found = {}
        for prefix, routes in json.loads(answer or b"{}").get("routes", {}).items():
            for route in (it for it in routes if it.get("bestpath")):
                source = by_address.get(route["peerId"], "own")
                found[prefix] = source, route["path"], route["origin"].lower()
        return found


class Bird(Lab):
    WORD, TOOL, BOUND = "BIRD", "plan-from-bird", "/etc/bird/bird.conf"
    WRITE, PROGRAM, PACKAGE = staticmethod(labs.bird), "/usr/sbin/bird", "bird2"
    VERSIONS = (2, 0, 12), (3,)

    def command(self, name):
        words = [self.PROGRAM, "-f", "-c", self.folder / f"{name}.conf"]
        return [*words, "-s", self.folder / f"{name}.ctl", "-P", self.folder / f"{name}.pid"]

    def rows(self, name):
        ends = rb"\n(0000|[89]\d{3}) [^\n]*\n$"
        answer = self.ask(f"{name}.ctl", b"show route primary all\n", ends)
        others = [other for other, _ in labs.linked(self.plan, name)]
        found, prefix = {}, None
        for line in answer.decode().splitlines():
            line = re.sub(r"^(\d{4}[ -]| )", "", line)
            if row := re.match(r"(\S+/\d+) .*\[(\w+) ", line):
                prefix = row[1]
                source = "own" if row[2] == "own" else f"from {others[int(row[2][2:])]}"
                found[prefix] = source, "", "igp"
            elif row := re.match(r"\tBGP\.as_path: ?(.*)", line):
                found[prefix] = found[prefix][0], row[1].strip(), found[prefix][2]
            elif row := re.match(r"\tBGP\.origin: (\w+)", line):
                found[prefix] = *found[prefix][:2], row[1].lower()
        return found


def compare(batch):
    """Runs the labs of a batch until each shows the wanted tables twice, and says which don't."""
    told = []
    try:
        for lab in batch:
            lab.start()
        waiting, equal, ends = [*batch], set(), time.monotonic() + LONGEST
        while waiting and time.monotonic() < ends:
            time.sleep(APART)
            still = []
            told += [line for lab in waiting for line in lab.ended()]
            if told:
                return told
            for lab in waiting:
                lab.found = lab.tables()
                if lab.found != lab.wanted:
                    equal.discard(lab.name)
                elif lab.name in equal:
                    continue
                else:
                    equal.add(lab.name)
                still.append(lab)
            waiting = still
        for lab in waiting:
            wanted, found = lab.wanted.splitlines(), lab.found.splitlines()
            told.append(f"{lab.name}: other tables")
            told += difflib.unified_diff(wanted, found, "wanted", "found", n=99, lineterm="")
    finally:
        for lab in batch:
            lab.end()
    return told


def can_bind():
    """Whether an address of loopback can be bound."""
    with socket.socket() as link:
        try:
            link.bind((f"127.{NETWORK}.0.1", labs.PORT))
        except OSError as error:
            print(f"peers.py: skipped, since no address of loopback is free: {error.strerror}")
            return False
    return True


def version(program):
    """The version that a daemon says it has."""
    ended = subprocess.run([program, "--version"], capture_output=True, text=True, timeout=30)
    found = re.search(r"version (\d+(?:\.\d+)*)", ended.stdout + ended.stderr)
    return tuple(map(int, found[1].split("."))) if found else ()


def kinds():
    """The daemons that are there."""
    found = []
    for kind in (Frr, Bird):
        if not pathlib.Path(kind.PROGRAM).exists():
            print(f"peers.py: {kind.WORD} is skipped; Debian's package {kind.PACKAGE} has it")
        elif not kind.VERSIONS[0] <= version(kind.PROGRAM) < kind.VERSIONS[1]:
            print(f"peers.py: {kind.WORD} is skipped, since it was tried with other versions")
        else:
            found.append(kind)
    if not shutil.which("timeout"):
        print("peers.py: skipped, since there is no timeout; Debian's package coreutils has it")
        return []
    try:
        import yaml  # noqa: F401
    except ImportError:
        print("peers.py: skipped, since there is no yaml; Debian's package python3-yaml has it")
        return []
    return found


def main(program, *words):
    there, told = kinds(), []
    if not there or not can_bind():
        return 0
    with tempfile.TemporaryDirectory(prefix="peers") as spot:
        made = []
        for name, plan in networks("--all" in words):
            for kind in there:
                made.append(kind(name, usable(plan), len(made), spot))
        for lab in made:
            wrong = lab.read_back(pathlib.Path(program).resolve())
            told += [f"{lab.name}: {wrong[0]}", *wrong[1:]] if wrong else []
        batch = []
        for lab in [*made, None]:
            if batch and (lab is None or sum(len(it.names) for it in [*batch, lab]) > AT_ONCE):
                told += compare(batch)
                batch = []
            batch.append(lab)
    print(*told, sep="\n", end="\n" * bool(told))
    return bool(told)


if __name__ == "__main__":
    sys.exit(main(*sys.argv[1:]))
