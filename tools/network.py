"""The network of a plan, as records-from-plan, cover and merge see it: which devices grow, islands,
the first reason why a boundary isn't certified, and what the devices of an island hold.

Nothing of this is trusted: what is made with it goes to `crystal plan`, which finds out by itself
whether the boundary is certified and the records are sound. README.md and docs/DEFINITIONS.md say
what is computed here. How routes are found is written of RFC 4271 and not taken from
acceptance/fixpoint.py, which the tools are compared with.
"""
import collections
import functools
import heapq
import json

try:
    import tomllib
except ImportError:
    raise SystemExit("python3 has no tomllib; Debian's package python3 has it from 3.11 on")

LONGEST_TEXT = 1 << 24  # octets of a plan's text
LONGEST_PATH = 255  # AS numbers in a path
ORIGINS = ["igp", "egp", "incomplete"]  # the lowest first (RFC 4271, 4.3)
KEYS = {  # of each table, in the order in which they are written
    "plan": ["version", "must", "emulate", "device", "link", "record"],
    "device": ["name", "layer", "asn", "id", "own", "peer"],
    "peer": ["name", "import", "export", "prepend"],
    "link": ["a", "b", "up"],
}

# Why a boundary isn't certified, in the program's words, and which devices of the island face it or
# originate what is originated elsewhere too: with these emulated, that reason is gone.
Refusal = collections.namedtuple("Refusal", "line devices")
# What goes over a link that is up: to whom, with which numbers in front, and past which lists.
Session = collections.namedtuple("Session", "receiver asn front export heard")


class Fault(Exception):
    """Why nothing can be made."""


# ---- atoms


def address(text):
    """The number that an address stands for."""
    return int.from_bytes(map(int, text.split(".")), "big")


@functools.cache
def by_prefix(prefix):
    """Prefixes are ordered by their 32 bits, then by length."""
    front, length = prefix.split("/")
    return address(front), at_most(32, int(length))


def at_most(greatest, number):
    if not 0 <= number <= greatest:
        raise ValueError(f"{number} isn't from 0 to {greatest}")
    return number


def entry(text):
    """An entry of a prefix list: the prefix and the lengths that it matches, and what it says."""
    word, within, *bounds = text.split(" ")
    bounds = dict(zip(bounds[0::2], map(int, bounds[1::2])))
    front, common = by_prefix(within)
    greatest = bounds.get("le", 32 if "ge" in bounds else common)
    return front, common, bounds.get("ge", common), greatest, word == "permit"


def entries(peer, key):
    """The prefix list under a key of a peer, or None."""
    return tuple(map(entry, peer[key])) if key in peer else None


@functools.cache
def permits(entries, prefix):
    """Whether a list permits a prefix: the first entry that matches decides, and no match denies.
    No list permits everything."""
    if entries is None:
        return True
    bits, length = by_prefix(prefix)
    for front, common, least, greatest, permit in entries:
        if least <= length <= greatest and bits >> (32 - common) == front >> (32 - common):
            return permit
    return False


# ---- the network


def read(name):
    """The network of the plan in this file."""
    try:
        with open(name, "rb") as file:
            plan = tomllib.loads(file.read().removeprefix(b"\xef\xbb\xbf").decode())
    except OSError as error:
        raise Fault(f"{name}: {error.strerror}")
    except (tomllib.TOMLDecodeError, UnicodeDecodeError) as error:
        raise Fault(f"{name}: python3's reader stops, and may know TOML 1.0 alone: {error}")
    try:
        return Network(plan)
    except (AttributeError, LookupError, TypeError, ValueError):
        raise Fault(f"{name} is no plan, and `crystal plan` says why")


def listed(tables, kind):
    """These tables, which have no key that isn't listed: it would get lost on the way."""
    for table in tables:
        for key in table.keys() - KEYS[kind]:
            raise Fault(f"no {kind} has the key {key}")
    return tables


class Network:
    """The network of a plan. A device is a number here, its place in the plan."""

    def __init__(self, plan):
        listed([plan], "plan")
        if plan["version"] != 1:
            raise Fault(f"a plan of version {plan['version']} isn't known here")
        self.plan = plan
        self.device = listed(plan.get("device", []), "device")
        self.link = listed(plan.get("link", []), "link")
        self.names = [device["name"] for device in self.device]
        self.place = {name: n for n, name in enumerate(self.names)}
        self.layers = [int(device["layer"]) for device in self.device]
        self.linked = [[] for _ in self.device]  # over links that are up or down
        self.sessions = [[] for _ in self.device]
        self.originates = [self.owns(device) for device in self.device]
        self.origins = {}  # of each prefix, in their order
        for n, owns in enumerate(self.originates):
            for prefix in owns:
                self.origins.setdefault(prefix, []).append(n)
        self.ids = [address(device["id"]) for device in self.device]
        self.join()
        self.body = self.body_text()
        self.texts = {}  # the records of islands that were asked for last

    def owns(self, device):
        """The prefixes that the device originates, each with the code of its ORIGIN."""
        words = [(own.split(" ") + ["igp"])[:2] for own in device.get("own", [])]
        return {prefix: ORIGINS.index(origin) for prefix, origin in words if by_prefix(prefix)}

    def join(self):
        """Fills in what goes over links."""
        peers = [
            {peer["name"]: peer for peer in listed(device.get("peer", []), "peer")}
            for device in self.device
        ]
        for link in self.link:
            ends = self.number(link["a"]), self.number(link["b"])
            for a, b in (ends, ends[::-1]):
                self.linked[a].append(b)
                if link.get("up", True):
                    told, heard = peers[a].get(self.names[b], {}), peers[b].get(self.names[a], {})
                    copies = 1 + at_most(LONGEST_PATH - 1, told.get("prepend", 0))
                    front = (self.device[a]["asn"],) * copies
                    lists = entries(told, "export"), entries(heard, "import")
                    self.sessions[a].append(Session(b, self.device[b]["asn"], front, *lists))

    def number(self, name):
        if not isinstance(name, str) or name not in self.place:
            raise Fault(f"there is no device {name}")
        return self.place[name]

    def grown(self, devices):
        """The least set that holds these and every device of a greater layer that is linked to one
        of its own."""
        found, todo = set(devices), list(devices)
        while todo:
            n = todo.pop()
            for other in self.linked[n]:
                if self.layers[other] > self.layers[n] and other not in found:
                    found.add(other)
                    todo.append(other)
        return found

    def parts(self, devices):
        """These devices in parts that links between them join, each ascending, by their least."""
        devices, found = set(devices), []
        for first in sorted(devices):
            if first in devices:
                devices.remove(first)
                part = [first]
                for n in part:
                    joined = devices.intersection(self.linked[n])
                    devices -= joined
                    part += joined
                found.append(sorted(part))
        return found

    def islands(self, emulated):
        return self.parts(set(range(len(self.device))) - emulated)

    def rows(self, emulated):
        """What the core would keep: a row for each prefix and each session to an emulated one."""
        return sum(len(self.linked[n]) for n in emulated) * len(self.origins)

    # ---- the boundary

    def refusal(self, emulated):
        """The first reason why the boundary of this set isn't certified, or None."""
        for island in self.islands(emulated):
            members, label = set(island), self.names[island[0]]
            facing = [n for n in island if emulated.intersection(self.linked[n])]
            beside = sorted({other for n in facing for other in self.linked[n]} & emulated)
            for side, devices in (("emulated", beside), ("outside", facing)):
                if two := self.two_numbers(devices):
                    words = " ".join(f"{self.names[n]} {self.device[n]['asn']}" for n in two)
                    return Refusal(f"facing {side} island {label}: {words}", facing)
            for prefix in self.prefixes(island):
                inside = [n for n in self.origins[prefix] if n in members]
                elsewhere = [n for n in self.origins[prefix] if n not in members]
                if elsewhere:
                    two = f"{self.names[inside[0]]} {self.names[elsewhere[0]]}"
                    line = f"origins island {label} prefix {prefix}: {two}"
                    return Refusal(line, inside[:1])
        return None

    def two_numbers(self, devices):
        """The least of these devices and the least that has another AS number, if there is one."""
        for n in devices:
            if self.device[n]["asn"] != self.device[devices[0]]["asn"]:
                return devices[0], n
        return None

    # ---- records

    def prefixes(self, devices):
        """All that these devices originate, in order."""
        return sorted({it for n in devices for it in self.originates[n]}, key=by_prefix)

    def settle(self, prefix, island):
        """What each device of an island holds for a prefix where no other devices are there: the
        sender, or None for a route of its own, the path and the code of the ORIGIN.

        Each offer is longer than the route that it was made of. So of all offers that are open the
        best one by length, then by ORIGIN, then by the sender's identifier (RFC 4271, 9.1.2.2, a, b
        and f) is what its receiver holds for good."""
        found, members = {}, set(island)
        open_offers = [
            (0, self.originates[n][prefix], 0, n, None, ())
            for n in self.origins[prefix]
            if n in members
        ]
        while open_offers:
            _, origin, _, n, sender, path = heapq.heappop(open_offers)
            if n in found:
                continue
            found[n] = sender, path, origin
            for session in self.sessions[n]:
                # A path has so many numbers at most, and no AS loop (RFC 4271, 9.1.2).
                length, b = len(session.front) + len(path), session.receiver
                if b in found or b not in members or length > LONGEST_PATH or session.asn in path:
                    continue
                if permits(session.export, prefix) and permits(session.heard, prefix):
                    offer = length, origin, self.ids[n], b, n, session.front + path
                    heapq.heappush(open_offers, offer)
        return found

    def island_texts(self, island):
        """The text of the records of each device of an island."""
        texts, size = {n: [] for n in island}, 0
        for prefix in self.prefixes(island):
            for n, (sender, path, origin) in self.settle(prefix, island).items():
                path = " ".join(map(str, path)) or "-"
                row = {"device": self.names[n], "prefix": prefix, "path": path}
                row["origin"] = ORIGINS[origin]
                if sender is not None:
                    row["from"] = self.names[sender]
                texts[n].append(table_text("record", row))
                size += len(texts[n][-1])
            if size > LONGEST_TEXT:
                label = self.names[island[0]]
                raise Fault(f"island {label}: its records are longer than a plan's text may be")
        return {n: "".join(rows) for n, rows in texts.items()}

    def records(self, emulated):
        """The text of the records that this boundary needs, by device and prefix: for each outside
        device and each prefix that its island originates, what it holds where the emulated devices
        are away. Those of an island are kept until a boundary is asked for that hasn't it."""
        kept, self.texts = self.texts, {}
        found = {}
        for island in self.islands(emulated):
            key = tuple(island)
            self.texts[key] = kept.get(key) or self.island_texts(island)
            found |= self.texts[key]
        return "".join(found[n] for n in sorted(found))

    # ---- the plan's text

    def body_text(self):
        """The text of the devices and links."""
        parts = []
        for device in self.device:
            parts.append(table_text("device", {**device, "peer": None}))
            parts += [table_text("device.peer", peer) for peer in device.get("peer", [])]
        parts += [table_text("link", link) for link in self.link]
        return "".join(parts)

    def text(self, key, names, records):
        """A plan of this network that emulates, or must emulate, these devices."""
        return f"version = 1\n{key} = {value(names)}\n{self.body}{records}"


def value(found):
    """A string, a number, a truth or a list of these: TOML writes them as JSON does."""
    return json.dumps(found, ensure_ascii=False)


def table_text(name, table):
    """A table of an array, its keys in the order of KEYS."""
    keys = KEYS.get(name.rpartition(".")[2], table)
    there = [key for key in keys if table.get(key) is not None]
    return f"[[{name}]]\n" + "".join(f"{key} = {value(table[key])}\n" for key in there)
