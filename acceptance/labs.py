"""Writes a plan as labs: a topology of containerlab with configurations of FRR or of BIRD, whose
devices speak on addresses of loopback. peers.py runs the daemons on them, and labs are read back by
plan-from-frr and plan-from-bird.
"""
import fixpoint

PORT = 11790


def links(plan):
    return [(link["a"], link["b"], link.get("up", True)) for link in plan.get("link", [])]


def linked(plan, name):
    """The devices that a device is linked to, each with whether the link is up."""
    found = [(a, b, up) if a == name else (b, a, up) for a, b, up in links(plan) if name in (a, b)]
    return [(other, up) for _, other, up in found]


def policy(device, other):
    return next((peer for peer in device.get("peer", []) if peer["name"] == other), {})


def topology(plan, bound):
    """The topology; `bound` is what the configuration of a node is named in it."""
    lines = ["name: lab", "topology:", "  nodes:"]
    for device in plan["device"]:
        lines += [f"    {device['name']}:", "      kind: linux"]
        lines += ["      binds:", f"        - {device['name']}.conf:{bound}"]
        lines += ["      labels:", f"        crystal-layer: {device['layer']}"]
    lines += ["  links:"] if plan.get("link") else []
    ports = {}
    for a, b, _ in links(plan):
        ends = []
        for name in (a, b):
            ports[name] = ports.get(name, 0) + 1
            ends.append(f'"{name}:eth{ports[name]}"')
        lines.append(f"    - endpoints: [{', '.join(ends)}]")
    return "".join(line + "\n" for line in lines)


def frr(plan, device, address):
    """The configuration of a device for FRR; `address` gives the one on which a device speaks."""
    name, asn = device["name"], device["asn"]
    lines = ["frr version 8.4.4", "frr defaults traditional", f"hostname {name}"]
    neighbors = [" neighbor COMMON peer-group", f" neighbor COMMON update-source {address(name)}"]
    neighbors += [" neighbor COMMON ebgp-multihop 2", " neighbor COMMON timers connect 1"]
    neighbors += [" neighbor COMMON description a peer"]
    family = ["  maximum-paths 8", "  neighbor COMMON soft-reconfiguration inbound"]
    family += ["  neighbor COMMON next-hop-self", "  neighbor COMMON send-community"]
    for number, (other, up) in enumerate(linked(plan, name)):
        peer, said = next(it for it in plan["device"] if it["name"] == other), policy(device, other)
        front = f" neighbor {address(other)}"
        neighbors += [f"{front} remote-as {peer['asn']}", f"{front} peer-group COMMON"]
        neighbors += [f"{front} port {PORT}"]
        # One end is enough to shut a link.
        neighbors += [] if up or name > other else [f"{front} shutdown"]
        for key, word in (("import", "in"), ("export", "out")):
            if key in said:
                entries = [
                    f"ip prefix-list {word}{number} seq {5 * n} {entry}"
                    for n, entry in enumerate(said[key], 1)
                ]
                lines += entries
                family.append(f" {front} prefix-list {word}{number} {word}")
        if said.get("prepend"):
            numbers = f" {asn}" * said["prepend"]
            lines += [f"route-map more{number} permit 10", f" set as-path prepend{numbers}", "exit"]
            family.append(f" {front} route-map more{number} out")
    for number, (prefix, origin) in enumerate(fixpoint.owns(device)):
        if origin != "igp":
            lines += [f"route-map own{number} permit 10", f" set origin {origin}", "exit"]
        family.append(f"  network {prefix}" + f" route-map own{number}" * (origin != "igp"))
    lines += [f"router bgp {asn}", f" bgp router-id {device['id']}"]
    lines += [" no bgp ebgp-requires-policy", " no bgp network import-check"]
    lines += [" bgp bestpath compare-routerid", " bgp bestpath as-path multipath-relax"]
    lines += [" bgp allow-martian-nexthop", *neighbors, " !"]
    lines += [" address-family ipv4 unicast", *family, " exit-address-family", "exit"]
    return "".join(line + "\n" for line in lines)


def statements(entries):
    """The statements of a filter of BIRD that does what these entries do."""
    found = []
    for entry in entries:
        permit, (_, length), least, greatest = fixpoint.entry(entry)
        bounds = {(length, length): "", (length, 32): "+"}
        bounds = bounds.get((least, greatest), f"{{{least},{greatest}}}")
        word = "accept" if permit else "reject"
        found.append(f"if net ~ [ {entry.split()[1]}{bounds} ] then {word};")
    return [*found, "reject;"]


def bird(plan, device, address):
    """The configuration of a device for BIRD."""
    name, asn = device["name"], device["asn"]
    lines = ["log stderr { error, fatal, bug };", f"router id {device['id']};"]
    lines += ["protocol device { }", "protocol static own {", "  ipv4;"]
    for prefix, origin in fixpoint.owns(device):
        said = "" if origin == "igp" else f" {{ bgp_origin = ORIGIN_{origin.upper()}; }}"
        lines.append(f"  route {prefix} blackhole{said};")
    lines += ["}", f"define OWN = {asn};", "template bgp common {", "  multihop;", "  strict bind;"]
    lines += [f"  local {address(name)} port {PORT} as OWN;", "  connect delay time 1;"]
    lines += ["  connect retry time 1;", "  error wait time 1, 2;"]
    lines += ['  description "a peer";', "  hold time 60;", "  keepalive time 20;"]
    lines += ["  ipv4 { import all; export all; next hop self; };", "}"]
    for number, (other, up) in enumerate(linked(plan, name)):
        peer, said = next(it for it in plan["device"] if it["name"] == other), policy(device, other)
        channel = []
        more = ["bgp_path.prepend(OWN);"] * said.get("prepend", 0)
        for key, first in (("import", []), ("export", more)):
            if first or key in said:
                rest = statements(said[key]) if key in said else ["accept;"]
                lines += [f"filter {key}{number} {{", *(f"  {it}" for it in first + rest), "}"]
                channel.append(f"{key} filter {key}{number};")
        lines += [f"protocol bgp to{number} from common {{"]
        lines += [f"  neighbor {address(other)} port {PORT} as {peer['asn']};"]
        lines += [] if up or name > other else ["  disabled;"]
        lines += [f"  ipv4 {{ {' '.join(channel)} }};"] if channel else []
        lines += ["}"]
    return "".join(line + "\n" for line in lines)
