#!/usr/bin/env python3
"""Tries plan-from-frr and plan-from-bird on small labs: what they make of what they read, and that
each line that no plan can say is refused with its file and line. Ends with status 1 and what was
wrong where something was; skipped with a line where python3 has no yaml.

    acceptance/makers.py

A lab is a topology and a configuration for each of its two nodes, `a` and `b`. A row of a table
edits one of them: it replaces a text that is there once. Then it says what is refused, by the lines
of the edited text with the cause of each, or which lines the plan has in the place of others. The
rows of FRR are in frr_rows.py, those of BIRD in bird_rows.py.
"""
import contextlib
import io
import pathlib
import re
import runpy
import sys
import tempfile
import tomllib

ROOT = pathlib.Path(__file__).resolve().parent.parent
sys.dont_write_bytecode = True
sys.path.insert(0, str(ROOT / "tools"))
import bird_rows
import frr_rows

TOPOLOGY = """name: lab
topology:
  nodes:
    a:
      kind: linux
      binds:
        - a.conf:BOUND
      labels:
        crystal: must
    b:
      kind: linux
      binds: [b.conf:BOUND]
      exec:
        - ip addr add 10.0.0.1/31 dev eth3
  links:
    - endpoints: ["a:eth1", "b:eth3"]
"""

PLAN = """version = 1
must = ["a"]
[[device]]
name = "a"
layer = 1
asn = 65001
id = "10.9.0.1"
own = ["10.1.1.0/24", "10.1.2.0/24 egp"]
[[device.peer]]
name = "b"
import = ["deny 10.2.0.0/16 ge 17 le 30", "permit 0.0.0.0/0 le 32"]
export = ["permit 10.0.0.0/8 le 24"]
prepend = 2
[[device]]
name = "b"
layer = 2
asn = 65002
id = "10.9.0.2"
[[link]]
a = "a"
b = "b"
"""

TOPOLOGY_REFUSED = [
    ("lab", "  nodes:", "  settings: 1\n  nodes:", {"  settings": "a key that isn't known"}),
    ("lab", "    b:\n", "    b:\n      network-mode: none\n",
     {"      network-mode": "a key that isn't known"}),
    ("lab", "      kind: linux\n", "      kind: linux\n      image: x\n      image: y\n",
     {"image: y": "a key twice"}),
    ("lab", "a.conf:BOUND", "${HOME}/a.conf:BOUND",
     {"        - ${HOME}": "no text without variables",
      "    a:": "no file configures a node that isn't labelled as a host"}),
    ("lab", "      binds: [b.conf:BOUND]\n", "",
     {"    b:": "no file configures a node that isn't labelled as a host"}),
    ("lab", "- ip addr add", "- vtysh -c", {"        - vtysh": "a command that isn't known"}),
    ("lab", "10.0.0.1/31", "fd00::1/64", {"        - ip addr": "no address of IPv4"}),
    ("lab", "    b:\n", "    b+:\n", {"    b+": "a name that no device of a plan has",
     "    - endpoints": "a link of a node that isn't there"}),
    ("lab", '"b:eth3"]', '"c:eth3"]', {"    - endpoints": "a link of a node that isn't there"}),
    ("lab", '"b:eth3"]', '"b:eth3", "b:eth4"]',
     {"    - endpoints": "a link that doesn't join two nodes"}),
    ("lab", '"b:eth3"]', '"a:eth3"]', {"    - endpoints": "a link of a node with itself"}),
    ("lab", '"b:eth3"]\n', '"b:eth3"]\n    - endpoints: ["b:eth4", "a:eth4"]\n',
     {'    - endpoints: ["b': "a second link of the same two nodes"}),
    ("lab", "crystal: must", "crystal: maybe",
     {"        crystal": "no must, emulate or host in the label crystal",
      "name": "nothing says what is emulated"}),
    ("lab", "        crystal: must\n", "        x: y\n", {"name": "nothing says what is emulated"}),
    ("lab", "      exec:", "      labels: {crystal: emulate}\n      exec:",
     {"name": "both must and emulate, of which a plan has one"}),
    ("lab", "crystal: must", "crystal: must\n        crystal-layer: 1",
     {"    b:": "a node without crystal-layer, which others have"}),
    ("lab", "crystal: must", "crystal: must\n        crystal-layer: 256",
     {"        crystal-layer": "no layer from 0 to 255",
      "    b:": "a node without crystal-layer, which others have"}),
]

TOPOLOGY_MADE = [
    ("lab", "    b:\n", "    h:\n      labels: {crystal: host}\n    b:\n", "", ""),
    ("lab", '["a:eth1", "b:eth3"]', "[{node: a, interface: eth1}, {node: b, interface: eth3}]",
     "", ""),
    ("lab", "crystal: must", "crystal: emulate", 'must = ["a"]', 'emulate = ["a"]'),
    ("lab", "  nodes:", "  kinds:\n    linux: {labels: {crystal-layer: 2}}\n  nodes:",
     "layer = 1", "layer = 2"),
    ("lab", "      binds: [b.conf:BOUND]", "      startup-config: __clabNodeName__.conf", "", ""),
]

TOOLS = {
    "plan-from-frr": (frr_rows, "/etc/frr/frr.conf"),
    "plan-from-bird": (bird_rows, "/etc/bird/bird.conf"),
}
FILES = {"lab": "lab.clab.yml"}


def run(tool, *words):
    """The status of a tool, and what it wrote to standard output and error. It runs in this
    process, since there are many rows."""
    out, err, status = io.StringIO(), io.StringIO(), 0
    sys.argv = [tool, *words]
    with contextlib.redirect_stdout(out), contextlib.redirect_stderr(err):
        try:
            runpy.run_path(str(ROOT / "tools" / tool), run_name="__main__")
        except SystemExit as end:
            status = end.code
    return status, out.getvalue(), err.getvalue()


def made(tool, files, words=()):
    """What a tool makes of the lab that has these files."""
    with tempfile.TemporaryDirectory() as spot, contextlib.chdir(spot):
        for name, text in files.items():
            pathlib.Path(FILES.get(name, name)).write_text(text)
        return run(tool, *words, "lab.clab.yml")


def edited(tool, name, old, new):
    """The files of a tool's lab, of which one has another text in the place of this."""
    texts, bound = TOOLS[tool][0].TEXTS, TOOLS[tool][1]
    files = texts | {"lab": TOPOLOGY.replace("BOUND", bound)}
    old, new = old.replace("BOUND", bound), new.replace("BOUND", bound)
    if not files[name].count(old):
        raise AssertionError(f"{name} has no text {old!r}")
    return files | {name: files[name].replace(old, new, 1)}


def place(files, name, front):
    """The file and the number of the first line that begins so. A file before it is another."""
    for other in files:
        if front.startswith(f"{other} "):
            name, front = other, front.removeprefix(f"{other} ")
    lines = [line.strip() for line in files[name].splitlines()]
    number = next((n for n, line in enumerate(lines, 1) if line.startswith(front.strip())), 0)
    return f"{FILES.get(name, name)}:{number}"


def refusal(tool, name, old, new, told):
    """What is wrong with the refusal of an edited lab."""
    files = edited(tool, name, old, new)
    status, stdout, stderr = made(tool, files)
    wanted = []
    for front, causes in told.items():
        causes = causes if isinstance(causes, list) else [causes]
        wanted += [f"{place(files, name, front)}: {cause}" for cause in causes]
    *found, last = stderr.splitlines() or [""]
    # What stands there follows the cause.
    front = all(any(f"{line}:".startswith(f"{it}:") for it in wanted) for line in found)
    if (status, stdout, len(found), front) == (3, "", len(wanted), True):
        return []
    said = f"{tool}: {new!r} for {old!r} ends with {status}"
    return [said, "wanted", *wanted, "found", *found, last]


def making(tool, name, old, new, line, other):
    """What is wrong with what is made of an edited lab."""
    status, stdout, stderr = made(tool, edited(tool, name, old, new))
    wanted = PLAN if not line else PLAN.replace(line, other, 1)
    if (status, stdout, stderr) == (0, wanted, ""):
        return []
    return [f"{tool}: {new!r} for {old!r} ends with {status}", stdout, stderr]


def rows():
    """Each row of a table, with what judges it."""
    for tool, (of, _) in TOOLS.items():
        yield making, (tool, "a.conf", "\n", "\n", "", "")
        for behind, told in of.LINES.items():
            for line, cause in told:
                new = behind + line + "\n"
                yield refusal, (tool, "a.conf", behind, new, {line.partition("\n")[0]: cause})
        for row in of.REFUSED + TOPOLOGY_REFUSED:
            yield refusal, (tool, *row)
        for row in of.MADE + TOPOLOGY_MADE:
            yield making, (tool, *row)


def edits(tool, *changes):
    """The files of a tool's lab, each text of which is replaced wherever it stands."""
    files = edited(tool, "lab", "lab", "lab")
    for name, old, new in changes:
        if old not in files[name]:
            raise AssertionError(f"{name} has no text {old!r}")
        files[name] = files[name].replace(old, new)
    return files


def others():
    """What has more than one edit, or other words: the files, the words, and what is wanted: the
    status, the plan or nothing, and how standard error begins."""
    frr, one = "plan-from-frr", 'must = ["a"]'
    for tool in TOOLS:
        yield tool, edits(tool), ["--emulate", "b"], 0, PLAN.replace(one, 'emulate = ["b"]'), ""
        yield tool, edits(tool), ["--must", "b,a"], 0, PLAN.replace(one, 'must = ["b", "a"]'), ""
        yield tool, edits(tool), ["--all"], 0, PLAN.replace(one, 'emulate = ["a", "b"]'), ""
        layers = PLAN.replace("layer = 1", "layer = x").replace("layer = 2", "layer = 1")
        yield tool, edits(tool), ["--racks", "b"], 0, layers.replace("layer = x", "layer = 2"), ""
        yield tool, edits(tool), ["--racks", "c"], 3, "", "lab.clab.yml:1: a rack that is no node"
        yield tool, edits(tool), ["--must", "c"], 3, "", "lab.clab.yml:1: a name that no node has"
        yield tool, edits(tool), ["--oldest"], 2, "", "usage: "
        absent = edits(tool, ("lab", "b.conf:", "c.conf:"))
        yield tool, absent, [], 1, "", f"{tool}: c.conf: No such"
        broken = edits(tool, ("lab", "  links:", " links:"))
        yield tool, broken, [], 1, "", f"{tool}: lab.clab.yml is no YAML"
        apart = edits(tool, ("lab", "    b:", "    c: {binds: [b.conf:BOUND]}\n    b:"))
        apart["lab"] = apart["lab"].replace("BOUND", TOOLS[tool][1])
        yield tool, apart, [], 3, "", "b.conf:1: the router id 10.9.0.2, which c has too: b\n"
    eth1 = " neighbor eth1 interface remote-as external"
    unnumbered = edits(
        frr,
        ("a.conf", " neighbor 10.0.0.1 remote-as 65002", eth1),
        ("a.conf", "neighbor 10.0.0.1", "neighbor eth1"),
        ("b.conf", "10.0.0.0 remote-as", "eth3 interface v6only remote-as"),
    )
    yield frr, unnumbered, [], 0, PLAN, ""
    group = " neighbor G peer-group\n neighbor G remote-as external\n"
    grouped = edits(
        frr,
        ("a.conf", " neighbor 10.0.0.1 remote-as 65002\n",
         f"{group} neighbor eth1 interface peer-group G\n"),
        ("a.conf", "neighbor 10.0.0.1", "neighbor eth1"),
        ("b.conf", " neighbor 10.0.0.0 remote-as external\n",
         f"{group} neighbor eth3 interface\n neighbor eth3 peer-group G\n"),
    )
    yield frr, grouped, [], 0, PLAN, ""
    loopbacks = edits(
        frr,
        ("a.conf", "interface lo\n", "interface lo\n ip address 10.8.0.1/32\n"),
        ("a.conf", "10.0.0.1 description up", "10.0.0.1 update-source lo"),
        ("a.conf", "neighbor 10.0.0.1", "neighbor 10.8.0.2"),
        ("a.conf", " ip address 10.1.1.1/24\n", ""),
        ("a.conf", "ip route", "ip route 10.1.1.0/24 blackhole\nip route"),
        ("b.conf", "exit\n", " neighbor 10.0.0.0 update-source 10.8.0.2\nexit\n"
         "interface lo\n ip address 10.8.0.2/32\nexit\n"),
        ("b.conf", "neighbor 10.0.0.0", "neighbor 10.8.0.1"),
    )
    near = "a peer in no network of an interface: neighbor 10.8.0."
    yield frr, loopbacks, [], 3, "", f"a.conf:25: {near}2 remote-as 65002\nb.conf:4: {near}1 "
    for name in ("a.conf", "b.conf"):
        far = "\\1 ebgp-multihop\n\\1 remote-as"
        loopbacks[name] = re.sub(r"( neighbor \S+) remote-as", far, loopbacks[name])
    yield frr, loopbacks, [], 0, PLAN, ""
    mixed = edits(
        frr,
        ("a.conf", " neighbor 10.0.0.1 remote-as 65002", eth1),
        ("a.conf", "neighbor 10.0.0.1", "neighbor eth1"),
    )
    yield frr, mixed, [], 3, "", "a.conf:24: a session that b doesn't have with this address: "
    passive = edits(
        frr,
        ("a.conf", "10.0.0.1 description up", "10.0.0.1 passive"),
        ("b.conf", "exit\n", " neighbor 10.0.0.0 passive\nexit\n"),
    )
    yield frr, passive, [], 3, "", "a.conf:24: a session that no end begins: "
    alone = edits(
        frr,
        ("a.conf", "  neighbor 10.0.0.1", "!"),
        ("a.conf", " neighbor 10.0.0.1", "!"),
        ("b.conf", " neighbor", "!"),
    )
    yield frr, alone, [], 3, "", "lab.clab.yml:16: a link without a session: a b\n"
    oldest = edits(
        frr,
        ("a.conf", " bgp bestpath compare-routerid\n", ""),
        ("a.conf", " neighbor 10.0.0.1 description up\n", " neighbor eth5 interface remote-as 7\n"
         " no bgp ebgp-requires-policy\n"),
    )
    yield frr, oldest, [], 3, "", "a.conf:21: no bgp bestpath compare-routerid, without which the "
    yield frr, oldest, ["--compare-routerid"], 3, "", "a.conf:24: a peer behind no link: "
    daemons = edits(frr, ("lab", "- a.conf", "- daemons:/etc/frr/daemons\n        - a.conf"))
    yield frr, daemons | {"daemons": "zebra=yes\nbgpd=no\n"}, [], 3, "", "daemons:1: bgpd isn't"
    yield frr, daemons | {"daemons": "zebra=yes\nbgpd=yes\n"}, [], 0, PLAN, ""
    split = edits(frr, ("lab", "- a.conf", "- zebra.conf:/etc/frr/zebra.conf\n        - a.conf"))
    yield frr, split, [], 3, "", "lab.clab.yml:7: a file of FRR that isn't read: "


def example():
    """What is wrong with the plan of the lab in examples/, which is that of the five devices."""
    status, stdout, stderr = run("plan-from-frr", str(ROOT / "examples/lab/five.clab.yml"))
    with open(ROOT / "examples/q-emulated.toml", "rb") as file:
        wanted = tomllib.load(file)
    if (status, stderr) == (0, "") and tomllib.loads(stdout) == wanted:
        return []
    return [f"the lab of the examples ends with {status}", stdout, stderr]


def main():
    try:
        import yaml  # noqa: F401
    except ImportError:
        print("makers.py: skipped, since there is no yaml; Debian's package python3-yaml has it")
        return 0
    told = example()
    for judge, row in rows():
        told += judge(*row)
    for tool, files, words, status, plan, error in others():
        *found, said = made(tool, files, words)
        if found != [status, plan] or not said.startswith(error) or (said and not error):
            told += [f"{tool} {words} ends with {found[0]}", f"wanted {status} {error}"]
            told += [found[1], said]
    print(*told, sep="\n", end="\n" * bool(told))
    return bool(told)


if __name__ == "__main__":
    sys.exit(main())
