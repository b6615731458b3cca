"""Reads a configuration of FRR, line by line. What no plan can say, and each line that isn't known,
is refused; `RULES` and `NEIGHBOR` have each line that is.
"""
import collections
import ipaddress
import re

from lab import network, topology

# What no plan can say, by the name that a refusal gives it. The first that is found names a line.
CAUSES = [
    ("iBGP", r"\binternal\b|route-reflector|cluster-id|\bibgp\b"),
    ("confederations", r"confed"),
    ("communities", r"communit"),
    ("AIGP", r"\baigp\b"),
    ("MED", r"-med\b|\bmed\b|set metric"),
    ("LOCAL_PREF", r"local-pref"),
    ("weights", r"\bweight\b"),
    ("several best routes", r"addpath|as-path multipath-relax|multipath"),
    ("other rules of the decision", r"bgp bestpath|\bdistance\b"),
    ("VRFs and views", r"\bvrf\b|router bgp \d+ view|import-vrf|exit-vrf"),
    ("another address family", r"address-family|ipv6|l2vpn|evpn|vpn|\bsafi\b"),
    ("aggregation", r"aggregate-address|summary-only"),
    ("redistribution", r"redistribute|default-originate|default-information|table-map"),
    ("another number than the own one in front", r"set as-path"),
    ("own AS numbers in a path, or other ones", r"allowas-in|as-override|local-as|remove-private"),
    ("NEXT_HOP", r"next-hop|attribute-unchanged"),
    ("a route map that does more", r"match |set |on-match|call |continue|route-map \S+ deny"),
    ("other lists", r"filter-list|distribute-list|access-list|unsuppress-map|advertise-map"),
    ("limits on prefixes", r"maximum-prefix"),
    ("sessions that are told by a range", r"listen "),
    ("a check of the distance", r"ttl-security"),
    ("graceful restart or shutdown", r"graceful|long-lived"),
    ("damping", r"dampening"),
    ("a session that is shut by default", r"bgp default shutdown|bgp shutdown"),
    ("waiting for the forwarding table", r"suppress-fib"),
    ("another routing protocol", r"router (?!bgp)|ospf|isis|\brip\b|eigrp|\bpim\b|mpls|segment-"),
]
OPENS = re.compile(r"(router|address-family|vrf|interface|route-map|key|bfd|rpki|segment)\b")
LENGTH = r"([1-9]?\d)"

# Each context's lines, with the method that reads one. What a named group finds is kept under its
# name; routing doesn't depend on a line without method and names.
NEIGHBOR = [
    r"remote-as (?P<remote>\d+|external|internal)",
    r"(?P<interface>interface)( v6only)?( remote-as (?P<remote>\d+|external|internal))?"
    r"( peer-group (?P<group>\S+))?",
    r"(?P<is_group>peer-group)",
    r"peer-group (?P<group>\S+)",
    r"prefix-list (?P<list_in>\S+) in|prefix-list (?P<list_out>\S+) out",
    r"route-map (?P<map_in>\S+) in|route-map (?P<map_out>\S+) out",
    r"(?P<shutdown>shutdown)( message .*)?",
    r"update-source (?P<source>\S+)",
    r"(?P<passive>passive)",
    r"password (?P<password>.*)",
    r"(?P<activate>activate)",
    r"(?P<far>ebgp-multihop( \d+)?|disable-connected-check)",
    r"description .*|port \d+",
    r"timers( connect)? \d+( \d+)?|advertisement-interval \d+",
    r"soft-reconfiguration inbound|next-hop-self|bfd( .*)?|enforce-first-as",
    r"send-community( (standard|extended|both|large|all))?",
    r"capability (dynamic|extended-nexthop)",
]
BGP = [
    (r"neighbor (\S+) (.*)", "neighbor"),
    (r"network (\S+)(?: route-map (\S+))?", "network"),
    (r"bgp router-id (?P<bgp_id>\S+)", None),
    (r"(?P<policy>(no )?bgp ebgp-requires-policy)", None),
    (r"(?P<check>(no )?bgp network import-check)", None),
    (r"(?P<unicast>(no )?bgp default ipv4-unicast)", None),
    (r"(?P<compare>bgp bestpath compare-routerid)", None),
    (r"no neighbor \S+ send-community( .*)?", None),
    (r"bgp bestpath as-path multipath-relax( no-as-set)?|maximum-paths \d+", None),
    (r"timers bgp \d+ \d+|coalesce-time \d+|bgp route-map delay-timer \d+", None),
    (r"(no )?bgp (log-neighbor-changes|fast-external-failover|suppress-duplicates)", None),
    (r"(no )?bgp default show-(nexthop-)?hostname", None),
    (r"(?P<far>bgp disable-ebgp-connected-route-check)|bgp allow-martian-nexthop", None),
]
RULES = {
    "": [
        (r"frr version (?P<release>\d+\.\d+)\S*", None),
        (r"frr defaults (?P<profile>traditional|datacenter)", None),
        (r"(?:ip )?router-id (?P<id>\S+)", None),
        (r"router bgp (\d+)", "router"),
        (r"interface (\S+)", "interface"),
        (r"ip prefix-list (\S+)(?: seq (\d+))? (permit|deny) (.*)", "entry"),
        (r"route-map (\S+) permit (\d+)", "map_entry"),
        (r"ip route (\S+) (.*)", "static"),
        (r"line vty", "line_vty"),
        (r"(hostname|domainname|log|service|debug|banner|password|enable password) .*", None),
        (r"no (log|service (?!integrated)|banner|debug).*|agentx|(no )?ip(v6)? forwarding", None),
        (r"ip prefix-list \S+ description .*", None),
    ],
    "interface": [
        (r"ip address (\S+)", "address"),
        (r"shutdown", "shut_interface"),
        (r"description .*|no shutdown|ipv6 address .*|(no )?ipv6 nd .*|bandwidth \d+", None),
        (r"(no )?link-detect|(no )?multicast", None),
    ],
    "map": [
        (r"set as-path prepend ([\d ]+)", "prepend"),
        (r"set origin (igp|egp|incomplete)", "origin"),
        (r"description .*", None),
    ],
    "bgp": [*BGP, (r"address-family ipv4( unicast)?", "address_family")],
    "unicast": BGP,
    "vty": [(r"(no )?(exec-timeout|login|access-class).*", None)],
}

Told = collections.namedtuple("Told", "value place line")


class Configuration:
    """What a configuration of FRR says, line by line. A line that its context doesn't know is read
    in the context around it, as FRR reads it."""

    def __init__(self, path, refused):
        self.path, self.refused = str(path), refused
        self.contexts, self.skipped, self.at = [""], None, None
        self.told, self.neighbors, self.networks = {}, {}, []
        self.lists, self.maps = {}, {}
        self.addresses, self.shut, self.statics = {}, set(), {}
        for number, text in enumerate(path.read_text(encoding="utf-8").splitlines(), 1):
            self.place, self.line = topology.Place(self.path, number), " ".join(text.split())
            self.read(len(text) - len(text.lstrip()))

    def refuse(self, cause):
        self.refused.add(self.place, cause, self.line)

    def read(self, indent):
        if not self.line or self.line[0] in "!#":
            return
        if self.skipped is not None:  # the lines of a block that is refused
            if indent > self.skipped:
                return
            self.skipped = None
            if self.line.startswith("exit"):
                return
        if re.fullmatch(r"exit|quit|end|exit-address-family", self.line):
            self.contexts = self.contexts[: 1 if self.line == "end" else -1] or [""]
            return
        for depth in range(len(self.contexts), 0, -1):
            for pattern, method in RULES[self.contexts[depth - 1]]:
                if found := re.fullmatch(pattern, self.line):
                    self.contexts = self.contexts[:depth]
                    self.keep(self.told, found)
                    if method:
                        getattr(self, method)(*found.groups())
                    return
        self.unknown()
        self.skipped = indent if OPENS.match(self.line) else None

    def keep(self, where, found):
        """Keeps what the named groups of a pattern found."""
        for key, value in found.groupdict().items():
            if value is not None:
                where[key] = Told(value, self.place, self.line)

    def unknown(self):
        name = next((name for name, of in CAUSES if re.search(of, self.line, re.I)), None)
        self.refuse(name or "a line that isn't known")

    def neighbor(self, name, rest):
        told = self.neighbors.setdefault(name, {"first": Told(name, self.place, self.line)})
        found = next(filter(None, (re.fullmatch(it, rest) for it in NEIGHBOR)), None)
        if found:
            self.keep(told, found)
        else:
            self.unknown()

    def router(self, asn):
        if not 1 <= int(asn) <= network.GREATEST_ASN:
            self.refuse("no AS number")
        if self.told.setdefault("asn", Told(asn, self.place, self.line)).value != asn:
            self.refuse("a second AS number")
        self.contexts.append("bgp")

    def address_family(self, _):
        self.contexts.append("unicast")

    def line_vty(self):
        self.contexts.append("vty")

    def network(self, prefix, of_map):
        self.networks.append((prefix, of_map, self.place, self.line))

    def interface(self, name):
        self.at = name
        self.contexts.append("interface")

    def address(self, text):
        try:
            self.addresses[ipaddress.IPv4Interface(text)] = self.at
        except ValueError:
            self.refuse("no address of IPv4")

    def shut_interface(self):
        self.shut.add(self.at)

    def static(self, prefix, hop):
        # With another distance it may be there or not, as the routes that are learnt have it.
        if re.fullmatch(r"Null0|blackhole|reject", hop):
            self.statics[prefix] = True
        else:
            self.statics.setdefault(prefix, False)

    def entry(self, name, number, word, rest):
        """An entry of a prefix list; one without a number stands behind the greatest, by fives."""
        entries = self.lists.setdefault(name, {})
        number = int(number) if number else max(entries, default=0) // 5 * 5 + 5
        rest = "0.0.0.0/0 le 32" if rest == "any" else rest
        found = re.fullmatch(rf"(\S+)(?: ge {LENGTH})?(?: le {LENGTH})?", rest)
        net = found and network.prefix_of(found[1])
        if not net:
            self.refuse("an entry of another form, or with bits behind its prefix's length")
            return
        bounds = [net.prefixlen, *(int(it) for it in found.groups()[1:] if it), 32]
        if bounds != sorted(bounds):
            self.refuse("lengths that aren't in order")
        if number in entries or f"{word} {rest}" in entries.values():
            self.refuse("an entry that is there twice, or has the number of another")
        entries[number] = f"{word} {rest}"

    def map_entry(self, name, _):
        if name in self.maps:
            self.refuse("a route map that does more")
        self.at = name
        self.maps[name] = {}
        self.contexts.append("map")

    def prepend(self, numbers):
        self.maps[self.at]["prepend"] = Told(numbers.split(), self.place, self.line)

    def origin(self, word):
        self.maps[self.at]["origin"] = Told(word, self.place, self.line)
