"""Reads the topology of a lab, as containerlab has it: its nodes, their files, and its links.

Everything has the line at which it stands. What isn't known here is refused, but for a list of
keys that say nothing of routing; variables of the environment are refused too.
"""
import collections
import dataclasses
import ipaddress
import re

NAME = re.compile(r"[A-Za-z0-9._-]{1,32}")

# What a node may say that its routing doesn't depend on.
PASSED = """image type image-pull-policy startup-delay restart-policy mgmt-ipv4 mgmt-ipv6 ports env
    env-files user cpu cpu-set memory sysctls dns license position auto-remove""".split()
READ = "kind group binds labels startup-config exec".split()

# Commands that a topology lets its nodes do once they run.
ADDS_ADDRESS = re.compile(r"ip (?:-4 )?a(?:ddr(?:ess)?)? (?:add|replace) (\S+) dev (\S+)")
SETS_ELSE = re.compile(r"ip link set (dev )?\S+ (up|mtu \d+)|sysctl .*|ip -6 .*")

Place = collections.namedtuple("Place", "file line")
Item = collections.namedtuple("Item", "value place")
Link = collections.namedtuple("Link", "a a_interface b b_interface place")


class Fault(Exception):
    """Why nothing can be read."""


@dataclasses.dataclass
class Node:
    """A node of a topology."""

    name: str
    place: Place
    labels: dict  # items by key
    binds: dict  # items by the name that they have in the node
    startup: Item | None
    commands: list  # items


class Topology:
    """The nodes and links of a topology's text. A node that is labelled as a host, and its links,
    are no part of the network."""

    def __init__(self, path, refused):
        self.path, self.refused = path, refused
        self.nodes, self.links, self.hosts = {}, [], set()
        keys = "name prefix mgmt topology".split()
        top = self.known(self.document(), keys, "topology")
        keys = "defaults kinds groups nodes links".split()
        topology = self.known(top.get("topology"), keys, "nodes")
        self.above = {key: self.table(topology.get(key)) for key in keys[:3]}
        for name, item in self.table(topology.get("nodes")).items():
            self.node(name, item)
        for item in self.array(topology.get("links")):
            self.link(item)

    def document(self):
        import yaml  # its absence is told before a topology is read

        try:
            with open(self.path, encoding="utf-8") as file:
                node = yaml.SafeLoader(file).get_single_node()
                return self.item(node) if node else None
        except (yaml.YAMLError, UnicodeDecodeError, RecursionError) as error:
            raise Fault(f"{self.path} is no YAML: {' '.join(str(error).split())}")

    def item(self, node, line=None):
        """A value with its line, which is that of the key where it has one. Scalars are texts."""
        place = Place(str(self.path), line or node.start_mark.line + 1)
        if node.id == "mapping":
            found = {}
            for key, value in node.value:
                line = key.start_mark.line + 1
                if key.value in found:
                    self.refused.add(place._replace(line=line), "a key twice", key.value)
                found[key.value] = self.item(value, line)
            return Item(found, place)
        if node.id == "sequence":
            return Item([self.item(value) for value in node.value], place)
        return Item(node.value, place)

    def table(self, item):
        """The items of a table by key; one that is absent or null is empty."""
        return self.shaped(item, dict, "no table, where one has to be")

    def array(self, item):
        return self.shaped(item, list, "no list, where one has to be")

    def shaped(self, item, shape, cause):
        if item is None or item.value in ("", "null", "~"):
            return shape()
        if not isinstance(item.value, shape):
            self.refused.add(item.place, cause)
            return shape()
        return item.value

    def known(self, item, keys, needed=""):
        """A table, of which other keys are refused, and so is that a needed one isn't there."""
        table = self.table(item)
        for key, value in table.items():
            if key not in keys:
                self.refused.add(value.place, "a key that isn't known", key)
        for key in needed.split():
            if key not in table:
                place = item.place if item else Place(str(self.path), 1)
                self.refused.add(place, f"there is no {key}")
        return table

    def text(self, item):
        """A text without variables of the environment."""
        if not isinstance(item.value, str) or "$" in item.value:
            self.refused.add(item.place, "no text without variables", str(item.value)[:60])
            return ""
        return item.value

    def named(self, table, key):
        return self.text(table[key]) if key in table else None

    def node(self, name, item):
        """A node, with what the defaults, its kind and its group say of it."""
        own, defaults = self.known(item, READ + PASSED), self.above["defaults"]
        group = self.table(self.above["groups"].get(self.named(own, "group")))
        kinds = [self.named(table, "kind") for table in (own, group, defaults)]
        kind = self.table(self.above["kinds"].get(next(filter(None, kinds), None)))
        labels, binds, startup, commands = {}, {}, None, []
        for level in (defaults, kind, group, own):
            for key, value in level.items():
                if key not in READ + PASSED:
                    self.refused.add(value.place, "a key that isn't known", key)
            labels |= self.table(level.get("labels"))
            startup = level.get("startup-config", startup)
            commands += self.array(level.get("exec"))
            for bind in self.array(level.get("binds")):
                source, target = (self.of_node(bind, name) + ":").split(":")[:2]
                binds[target.rstrip("/")] = Item(source, bind.place)
        if startup:
            startup = Item(self.of_node(startup, name), startup.place)
        made = Node(name, item.place, labels, binds, startup, commands)
        if self.label(made, "crystal") == "host":
            self.hosts.add(name)
            return
        if not NAME.fullmatch(name):
            self.refused.add(item.place, "a name that no device of a plan has", name)
        self.nodes[name] = made

    def of_node(self, item, name):
        return self.text(item).replace("__clabNodeName__", name)

    def label(self, node, key):
        return self.named(node.labels, key)

    def link(self, item):
        keys = "endpoints mtu vars labels type".split()
        table = self.known(item, keys, "endpoints")
        ends = []
        for end in self.array(table.get("endpoints")):
            if isinstance(end.value, dict):
                of = self.known(end, ["node", "interface", "mac"], "node interface")
                ends.append([self.named(of, key) or "" for key in ("node", "interface")])
            else:
                ends.append(self.text(end).split(":"))
        is_pair = len(ends) == 2 and all(len(end) == 2 and all(end) for end in ends)
        if not is_pair or self.named(table, "type") not in (None, "veth"):
            self.refused.add(item.place, "a link that doesn't join two nodes")
            return
        names = [end[0] for end in ends]
        unknown = [name for name in names if name not in {*self.nodes, *self.hosts}]
        for name in unknown:
            self.refused.add(item.place, "a link of a node that isn't there", name)
        if not unknown and not self.hosts & {*names}:
            self.join(Link(*ends[0], *ends[1], item.place))

    def join(self, link):
        told = f"{link.a} {link.b}"
        if link.a == link.b:
            self.refused.add(link.place, "a link of a node with itself", told)
        elif any({link.a, link.b} == {it.a, it.b} for it in self.links):
            self.refused.add(link.place, "a second link of the same two nodes", told)
        else:
            self.links.append(link)

    def addresses(self, node):
        """The addresses that a topology's commands give to a node, with their interfaces."""
        found = {}
        for item in node.commands:
            command = self.text(item)
            if added := ADDS_ADDRESS.fullmatch(command):
                try:
                    found[ipaddress.IPv4Interface(added[1])] = added[2]
                except ValueError:
                    self.refused.add(item.place, "no address of IPv4", command)
            elif not SETS_ELSE.fullmatch(command):
                self.refused.add(item.place, "a command that isn't known", command)
        return found

    def bound(self, node, name):
        """The file that is bound to this name in the node, or lies in a folder that is. An item, or
        None."""
        folder, _, last = name.rpartition("/")
        if name in node.binds:
            source, place = node.binds[name]
            return Item(self.path.parent / source, place)
        if folder in node.binds:
            source, place = node.binds[folder]
            path = self.path.parent / source / last
            return Item(path, place) if path.exists() else None
        return None

    def file(self, node, names):
        """The file that configures a node: one that is bound to one of these names, or its
        startup-config. An item, or None."""
        found = [*filter(None, (self.bound(node, name) for name in names))]
        if not found and node.startup:
            found = [Item(self.path.parent / node.startup.value, node.startup.place)]
        if len(found) != 1:
            cause = "no file configures a node that isn't labelled as a host"
            if found:
                cause = "several files configure a node"
            self.refused.add(node.place, cause, node.name)
            return None
        return found[0]
