"""From the configurations of a lab's nodes to a plan: what plan-from-frr and plan-from-bird share.

Each tool reads a configuration into a `Device`. Here the sessions of both ends are put together
with the links of the topology, layers are found, and the plan's text is written. What no plan can
say is refused with its file and line, and nothing is left out.
"""
import argparse
import dataclasses
import ipaddress
import json
import pathlib
import re
import sys

from lab import topology

LONGEST_PREPEND = 254
GREATEST_LAYER = 255
GREATEST_ASN = 4294967295
PERMIT_ALL = "permit 0.0.0.0/0 le 32"

# Of a prefix in these a daemon takes no route in.
BOGUS = [*map(ipaddress.IPv4Network, "0.0.0.0/8 127.0.0.0/8 169.254.0.0/16 224.0.0.0/3".split())]


class Refused:
    """The lines that no plan can say, each with its cause."""

    def __init__(self):
        self.lines = {}  # what stands there, by place and cause

    def add(self, place, cause, line=None):
        self.lines.setdefault((place, cause), line)

    def tell(self, tool):
        """Prints them by file, in the order in which the files were read."""
        files = list(dict.fromkeys(place.file for place, _ in self.lines))
        for (place, cause), line in sorted(
            self.lines.items(), key=lambda it: (files.index(it[0][0].file), it[0][0].line)
        ):
            shown = f"{cause}: {line}" if line else cause
            print(f"{place.file}:{place.line}: {shown}", file=sys.stderr)
        print(f"{tool}: this is refused, so no plan is written", file=sys.stderr)


@dataclasses.dataclass
class Session:
    """What a device's configuration says of one peer."""

    place: topology.Place
    line: str
    peer: str  # the peer's address, or the own interface behind which it is
    remote: int | str  # the peer's AS number, or `external`
    source: str | None = None  # the own address or interface, where it is told
    imports: list | None = None  # entries; or no list
    exports: list | None = None
    prepend: int = 0
    is_down: bool = False
    is_passive: bool = False
    is_near: bool = False  # it comes up with an address in the network of an interface alone
    password: str | None = None


@dataclasses.dataclass
class Device:
    """What the configuration of a device says."""

    place: topology.Place
    asn: int
    router_id: str
    own: dict  # ORIGINs by prefix
    sessions: list
    addresses: dict  # the interface of each own address, or None where it isn't told
    shut: set = dataclasses.field(default_factory=set)  # interfaces that are shut


def is_address(text):
    parts = text.split(".")
    return len(parts) == 4 and all(
        re.fullmatch(r"0|[1-9]\d{0,2}", part) and int(part) < 256 for part in parts
    )


def prefix_of(text):
    """The prefix that a text spells, with no bit set after its length, or None."""
    front, _, length = text.partition("/")
    if not is_address(front) or not re.fullmatch(r"\d|[12]\d|3[0-2]", length):
        return None
    try:
        return ipaddress.IPv4Network(text)
    except ValueError:
        return None


def own_cause(prefix):
    """Why a device can't originate this prefix, or None."""
    if prefix is None:
        return "no prefix, or one with bits behind its length"
    if prefix.prefixlen and any(prefix.overlaps(net) for net in BOGUS):
        return "a prefix of which daemons take no route"
    return None


class Network:
    """The devices of a lab and the links that join them, each with the sessions of its two ends."""

    def __init__(self, lab, devices, refused):
        self.lab, self.devices, self.refused = lab, devices, refused
        self.sessions = {}  # by the names of the device and its peer
        self.routers()
        self.owners = {}
        for name, device in devices.items():
            for address in device.addresses:
                owners = self.owners.setdefault(str(address.ip), [])
                owners += [name] if name not in owners else []
        ends = self.ends()
        for (name, own, peer), (other, session) in ends.items():
            self.pair(name, other, session, ends.get((other, peer, own)))
        for link in lab.links if not refused.lines else []:
            names = link.a, link.b
            if names not in self.sessions:
                self.refused.add(link.place, "a link without a session", " ".join(names))

    def routers(self):
        """No two devices have one router id."""
        seen = {}
        for name, device in self.devices.items():
            other = seen.setdefault(device.router_id, name)
            if other != name:
                cause = f"the router id {device.router_id}, which {other} has too"
                self.refused.add(device.place, cause, name)

    def link_of(self, name, other):
        return next((it for it in self.lab.links if {it.a, it.b} == {name, other}), None)

    def ends(self):
        """The peer and the session behind each own end and peer's end. An end is an address, or the
        name of the link where the peer is told by its interface."""
        found = {}
        for name, device in self.devices.items():
            for session in device.sessions:
                if is_address(session.peer):
                    other, own, peer = self.by_address(name, device, session)
                else:
                    other, own, peer = self.by_interface(name, session)
                if other is None:
                    continue
                if (name, own, peer) in found:
                    self.refused.add(session.place, "a second session of this peer", session.line)
                found[name, own, peer] = other, session
        return found

    def by_interface(self, name, session):
        for link in self.lab.links:
            for end, other in ((link[:2], link[2:4]), (link[2:4], link[:2])):
                if end == (name, session.peer):
                    return other[0], *[f"{link.a} {link.b}"] * 2
        self.refused.add(session.place, "a peer behind no link", session.line)
        return None, None, None

    def by_address(self, name, device, session):
        owners = self.owners.get(session.peer, [])
        if owners == [name]:
            self.refused.add(session.place, "a peer that is the device itself", session.line)
        elif len(owners) != 1:
            cause = "a peer whose address no device has"
            if owners:
                cause = f"a peer whose address several devices have ({', '.join(owners)})"
            self.refused.add(session.place, cause, session.line)
        elif session.is_near and not self.is_near(device, session):
            self.refused.add(session.place, "a peer in no network of an interface", session.line)
        elif own := self.source(name, device, session):
            return owners[0], own, session.peer
        return None, None, None

    def is_near(self, device, session):
        peer = ipaddress.IPv4Address(session.peer)
        return any(of and peer in it.network for it, of in device.addresses.items())

    def source(self, name, device, session):
        """The own address of a session: the one that is told, or that of the peer's network."""
        if session.source and is_address(session.source):
            return session.source
        found = [
            address
            for address, interface in device.addresses.items()
            if session.source in (None, interface)
            and (session.source or ipaddress.IPv4Address(session.peer) in address.network)
        ]
        if len(found) != 1:
            self.refused.add(session.place, "a peer in no network of an interface", session.line)
            return None
        link = self.link_of(name, (self.owners.get(session.peer) or [None])[0])
        used = {
            interface: it
            for it in self.lab.links
            for of, interface in ((it.a, it.a_interface), (it.b, it.b_interface))
            if of == name
        }
        if link and used.get(device.addresses[found[0]], link) != link:
            self.refused.add(session.place, "a peer at another link's interface", session.line)
        return str(found[0].ip)

    def pair(self, name, other, session, opposite):
        """One of the two directions of a session, each of which is looked at for itself."""
        own, peer = self.devices[name], self.devices[other]
        if session.remote in (own.asn, "internal") or own.asn == peer.asn:
            self.refused.add(session.place, "iBGP", session.line)
        elif session.remote not in (peer.asn, "external"):
            cause = f"another AS number than {other} has, which is {peer.asn}"
            self.refused.add(session.place, cause, session.line)
        if not self.link_of(name, other):
            cause = f"a session with {other}, to which no link goes"
            self.refused.add(session.place, cause, session.line)
        elif opposite is None or opposite[0] != name:
            cause = f"a session that {other} doesn't have with this address"
            self.refused.add(session.place, cause, session.line)
        elif session.is_passive and opposite[1].is_passive:
            self.refused.add(session.place, "a session that no end begins", session.line)
        elif session.password != opposite[1].password:
            self.refused.add(session.place, f"another password than {other} has", session.line)
        elif (name, other) in self.sessions:
            self.refused.add(session.place, f"a second session with {other}", session.line)
        else:
            self.sessions[name, other] = session

    def is_up(self, link):
        """Whether neither end of a link is shut."""
        shut = [
            interface in self.devices[name].shut or self.sessions[name, other].is_down
            for name, interface, other in (
                (link.a, link.a_interface, link.b),
                (link.b, link.b_interface, link.a),
            )
        ]
        return not any(shut)


def layers_of(lab, devices, racks, refused):
    """The layer of each device: that of its label, or one more than the least number of links to a
    rack. Racks are those that are named, else the devices that originate a prefix."""
    for name in (name for name in racks if name not in devices):
        refused.add(topology.Place(str(lab.path), 1), "a rack that is no node", name)
    labelled = {name: lab.nodes[name].labels.get("crystal-layer") for name in devices}
    if any(labelled.values()):
        for name, item in labelled.items():
            if item is None:
                place = lab.nodes[name].place
                refused.add(place, "a node without crystal-layer, which others have", name)
            elif not re.fullmatch(r"0|[1-9]\d{0,2}", lab.text(item)) or int(item.value) > 255:
                refused.add(item.place, "no layer from 0 to 255", item.value)
        return {name: item and item.value for name, item in labelled.items()}
    racks = racks or [name for name, device in devices.items() if device.own]
    layers, latest = dict.fromkeys(racks, 1), racks
    while latest:
        ends = [end for it in lab.links for end in ((it.a, it.b), (it.b, it.a))]
        found = {b for a, b in ends if a in latest and b not in layers}
        layers |= dict.fromkeys(found, layers[latest[0]] + 1)
        latest = [*found]
    for name in devices:
        if layers.get(name, GREATEST_LAYER + 1) > GREATEST_LAYER:
            cause = "a node without a layer, since no way goes from it to a rack"
            refused.add(lab.nodes[name].place, cause, name)
    return layers


def selected(lab, asked, refused):
    """The plan's key for what is emulated, and its names."""
    found = {"must": [], "emulate": []}
    for node in lab.nodes.values():
        if value := lab.label(node, "crystal"):
            place = node.labels["crystal"].place
            if value in found:
                found[value].append(node.name)
            else:
                refused.add(place, "no must, emulate or host in the label crystal", value)
    start = topology.Place(str(lab.path), 1)
    asked_for = {"must": asked.must, "emulate": [*lab.nodes] if asked.all else asked.emulate}
    if any(asked_for.values()):
        found = asked_for
    for name in (name for names in found.values() for name in names):
        if name not in lab.nodes:
            refused.add(start, "a name that no node has", name)
    keys = [key for key, names in found.items() if names]
    if len(keys) != 1:
        cause = "both must and emulate, of which a plan has one"
        if not keys:
            cause = "nothing says what is emulated: a label crystal, --must, --emulate or --all"
        refused.add(start, cause)
        return "emulate", []
    return keys[0], list(dict.fromkeys(found[keys[0]]))


def value(found):
    """This as TOML: a text, a number, a truth value or a list of texts."""
    return json.dumps(found)


def text_of(network, layers, key, names):
    """The text of the plan."""
    lines = ["version = 1", f"{key} = {value(names)}"]
    for name, device in network.devices.items():
        lines += ["[[device]]", f"name = {value(name)}", f"layer = {layers[name]}"]
        lines += [f"asn = {device.asn}", f"id = {value(device.router_id)}"]
        own = [str(it) + (f" {origin}" * (origin != "igp")) for it, origin in device.own.items()]
        lines += [f"own = {value(own)}"] if own else []
        for (of, other), session in network.sessions.items():
            said = {"import": session.imports, "export": session.exports}
            said = {word: found for word, found in said.items() if found is not None}
            said |= {"prepend": session.prepend} if session.prepend else {}
            if of == name and said:
                lines += ["[[device.peer]]", f"name = {value(other)}"]
                lines += [f"{word} = {value(found)}" for word, found in said.items()]
    for link in network.lab.links:
        lines += ["[[link]]", f"a = {value(link.a)}", f"b = {value(link.b)}"]
        lines += [] if network.is_up(link) else ["up = false"]
    return "".join(line + "\n" for line in lines)


def words(tool, about, options):
    """What is asked for. Names are joined by commas."""
    names = {"type": lambda text: text.split(","), "action": "extend", "default": []}
    parser = argparse.ArgumentParser(prog=tool, description=about, allow_abbrev=False)
    parser.add_argument("topology", metavar="TOPOLOGY", help="a topology of containerlab")
    told = "devices from which the emulated ones are grown upwards, joined by commas"
    parser.add_argument("--must", metavar="NAMES", help=told, **names)
    told = "devices that are emulated, and no others"
    parser.add_argument("--emulate", metavar="NAMES", help=told, **names)
    parser.add_argument("--all", action="store_true", help="emulate all devices")
    parser.add_argument("--racks", metavar="NAMES", help="devices of layer 1", **names)
    for option, told in options:
        parser.add_argument(option, action="store_true", help=told)
    return parser.parse_args()


def run(tool, asked, read):
    """The status of a tool that reads each node by `read`, which answers a device or None."""
    try:
        import yaml  # noqa: F401
    except ImportError:
        print(f"{tool}: python3 has no yaml; Debian's package python3-yaml has it", file=sys.stderr)
        return 1
    refused = Refused()
    try:
        lab = topology.Topology(pathlib.Path(asked.topology), refused)
        found = {name: read(lab, node, asked, refused) for name, node in lab.nodes.items()}
    except (OSError, UnicodeDecodeError, topology.Fault) as fault:
        told = f"{fault.filename}: {fault.strerror}" if isinstance(fault, OSError) else fault
        print(f"{tool}: {told}", file=sys.stderr)
        return 1
    # What is refused here would have others refused that depend on it.
    if not refused.lines:
        network = Network(lab, found, refused)
        layers = layers_of(lab, found, asked.racks, refused)
        key, names = selected(lab, asked, refused)
    if refused.lines:
        refused.tell(tool)
        return 3
    sys.stdout.write(text_of(network, layers, key, names))
    return 0
