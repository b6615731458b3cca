"""Reads a configuration of BIRD 2, statement by statement. What no plan can say, and each statement
that isn't known, is refused; `TOP` and `STATEMENTS` have those that are.
"""
import collections
import dataclasses
import re

from lab import network, topology

# What no plan can say, by the name that a refusal gives it. The first that is found names a line.
CAUSES = [
    ("iBGP", r"\binternal\b|\brr client\b|\bcluster id\b"),
    ("confederations", r"\bconfederation"),
    ("communities", r"communit"),
    ("MED", r"\bbgp_med\b|\bmed\b"),
    ("LOCAL_PREF", r"local_pref"),
    ("VRFs", r"\bvrf\b"),
    ("another address family", r"\bipv6\b|\bvpn[46]\b|\bflow[46]\b|\bmpls\b|multicast|\w*::"),
    ("another routing protocol", r"protocol (?!bgp|static|direct|device|kernel|bfd)"),
    ("functions", r"\bfunction\b"),
    ("other tables", r"\btable\b"),
    ("limits on prefixes", r"\blimit\b"),
    ("several best routes", r"\badd paths\b|\bsecondary\b|\bmerge paths\b"),
    ("graceful restart", r"graceful|long lived"),
    ("other rules of the decision",
     r"prefer older|path metric|igp metric|gateway|\bpreference\b"),
    ("own AS numbers in a path, or other ones", r"allow local as|allow as sets|enforce first"),
    ("a check of the distance", r"ttl security"),
    ("redistribution", r"\blearn\b|\bsource\b|\bproto\b"),
    ("a route that isn't always there", r"^route "),
    ("another filter than by prefixes", r"^(if|case|else|import|export|for)\b"),
    ("attributes", r"\b(bgp|krt)_\w+|\b(gw|dest|ifname)\b"),
    ("NEXT_HOP", r"next hop"),
]

ADDRESS = r"\d+\.\d+\.\d+\.\d+"
YES = r"(?: (?:on|yes))?"
NO = r" (?:off|no)"
TIME = r"\d+(?: (?:s|ms|us))?"

# The statements of a BGP protocol. What a named group finds is kept under its name; routing doesn't
# depend on one without names.
STATEMENTS = [
    rf"local(?: (?P<local>{ADDRESS}))?(?: port \d+| as (?P<asn>\d+))*",
    rf"neighbor (?P<peer>{ADDRESS})(?: port \d+| as (?P<remote>\d+)| (?P<external>external))*",
    rf"source address (?P<source>{ADDRESS})",
    r"(?P<multihop>multihop)(?: \d+)?",
    rf"(?P<passive>passive){YES}",
    rf"(?P<disabled>disabled){YES}",
    r"password (?P<password>\".*\")",
    rf"direct|strict bind(?:{YES}|{NO})|check link(?:{YES}|{NO})|interface \"[^\"]*\"",
    rf"(?:startup )?hold time {TIME}|keepalive time {TIME}|connect (?:retry|delay) time {TIME}",
    rf"error (?:wait time {TIME} , {TIME}|forget time {TIME})|description \".*\"",
    rf"bfd(?:{YES}|{NO})|(?:debug|mrtdump) .*|enable (?:route refresh|extended messages){YES}",
    rf"advertise hostname(?:{YES}|{NO})",
]
TOP = [
    (rf"router id ({ADDRESS})", "router_id"),
    (r"define (\S+) = (\S.*)", "define"),
    (r"filter (\S+)", "filter"),
    (r"template bgp (\S+)", "template"),
    (r"protocol bgp(?: (?!from )(\S+))?(?: from (\S+))?", "bgp"),
    (r"protocol static(?: \S+)?", "static"),
    (r"protocol direct(?: \S+)?", "direct"),
    (r"protocol kernel(?: \S+)?", "kernel"),
    (r"protocol (?:device|bfd)(?: \S+)?", None),
    (r"(?:log|debug|timeformat|hostname|watchdog|mrtdump|cli) .*|ipv4 table master4", None),
]
TOKEN = re.compile(
    r"(?P<gap>\s+|#[^\n]*|/\*.*?\*/)|(?P<text>\"[^\"\n]*\"|\[[^\]]*\]|'[^'\n]*'|!~|!=|"
    r"[\w.:/%]+|[{};]|[^\s\w{};])",
    re.S,
)
COMMENT = re.compile(r"#[^\n]*|/\*.*?\*/", re.S)
COMMA = re.compile(r",(?![^{]*\})")  # of a set, and not that between two lengths

Told = collections.namedtuple("Told", "value statement")


@dataclasses.dataclass
class Statement:
    """Words up to a semicolon, or up to a block."""

    words: list
    place: topology.Place
    block: list | None = None


@dataclasses.dataclass
class Policy:
    """What a filter does: the entries of a prefix list or no list, and numbers put in front."""

    entries: list | None
    numbers: list = dataclasses.field(default_factory=list)


def statements_of(path):
    """The statements of a configuration."""
    text, tokens, at = path.read_text(encoding="utf-8"), [], 0
    while found := TOKEN.match(text, at):
        if found["text"]:
            tokens.append((found["text"], text.count("\n", 0, at) + 1))
        at = found.end()
    stack, words, place = [[]], [], None
    for word, line in tokens:
        if not words:
            place = topology.Place(str(path), line)
        if word == "{":
            stack[-1].append(Statement(words, place, []))
            stack.append(stack[-1][-1].block)
            words = []
        elif word in ("}", ";"):
            if words:
                stack[-1].append(Statement(words, place))
            words = []
            if word == "}" and len(stack) == 1:
                raise topology.Fault(f"{path}, line {line}: a brace that closes nothing")
            stack = stack[:-1] if word == "}" else stack
        else:
            words.append(word)
    if words or len(stack) > 1:
        raise topology.Fault(f"{path} ends in the middle of a statement")
    return stack[0]


class Configuration:
    """What a configuration of BIRD says, statement by statement."""

    def __init__(self, path, refused):
        self.path, self.refused = path, refused
        self.start = topology.Place(str(path), 1)
        self.id, self.defines, self.filters, self.templates = None, {}, {}, {}
        self.peers, self.own, self.interfaces = [], {}, []
        for statement in statements_of(path):
            self.read(statement)

    def refuse(self, statement, cause=None):
        line = self.line(statement)
        if cause is None:
            cause = next((name for name, of in CAUSES if re.search(of, line)), None)
        self.refused.add(statement.place, cause or "a statement that isn't known", line[:90])

    def line(self, statement):
        """The statement as a text, with constants in place of their names."""
        words = statement.words
        if words[0] != "define":
            words = [self.defines.get(word, word) for word in words]
        return " ".join(COMMENT.sub(" ", " ".join(words)).split())

    def read(self, statement):
        for pattern, method in TOP:
            if found := re.fullmatch(pattern, self.line(statement)):
                if method:
                    getattr(self, method)(statement, *found.groups())
                return
        self.refuse(statement)

    def router_id(self, statement, address):
        self.id = Told(address, statement)

    def define(self, statement, name, value):
        if name in self.defines or not re.fullmatch(rf"\d+|{ADDRESS}|\[.*\]", value):
            self.refuse(statement, "a constant of another form")
        self.defines[name] = value

    def filter(self, statement, name):
        self.filters[name] = self.policy(statement.block or [], statement)

    def template(self, statement, name):
        self.templates[name] = self.session(statement, {})

    def bgp(self, statement, _, template):
        if template and template not in self.templates:
            self.refuse(statement, "a template that isn't there")
            return
        before = len(self.refused.lines)
        told = self.session(statement, self.templates.get(template, {}))
        if len(self.refused.lines) == before:
            self.peers.append((statement, told))

    def session(self, statement, told):
        """What the statements of a protocol tell, beside what its template tells."""
        told = dict(told)
        for inner in statement.block or []:
            line = self.line(inner)
            found = next(filter(None, (re.fullmatch(it, line) for it in STATEMENTS)), None)
            if line == "ipv4":
                self.channel(inner, told)
            elif found and (inner.block is None or line == "bfd"):
                told |= {key: Told(it, inner) for key, it in found.groupdict().items() if it}
            else:
                self.refuse(inner)
        return told

    def channel(self, statement, told):
        told["ipv4"] = Told(True, statement)
        for inner in statement.block or []:
            line = self.line(inner)
            if found := re.fullmatch(r"(import|export) (.*)", line):
                if policy := self.chosen(inner, found[2]):
                    told[found[1]] = Told(policy, inner)
                else:
                    self.refuse(inner)
            elif not re.fullmatch(rf"next hop self(?:{YES}| ebgp)|table master4", line):
                self.refuse(inner)

    def chosen(self, statement, line):
        """The policy that a channel has, or None."""
        if line in ("all", "none"):
            return Policy(None if line == "all" else [])
        if line == "filter" and statement.block is not None:
            return self.policy(statement.block, statement)
        if found := re.fullmatch(r"filter (\S+)", line):
            return self.filters.get(found[1])
        if found := re.fullmatch(r"where (net !?~ \[.*\])", line):
            then = Statement(f"if {found[1]} then accept".split(), statement.place)
            return self.policy([then, Statement(["reject"], statement.place)], statement)
        return None

    def policy(self, statements, whole):
        """What the statements of a filter do. Each route that is let through has to get the same
        numbers in front."""
        entries, numbers, accepted = [], [], []
        for place, statement in enumerate(statements):
            line, rest = self.line(statement), statements[place + 1 :]
            found = re.fullmatch(r"if \(? ?net (!?)~ \[(.*)\] ?\)? then(?: (accept|reject))?", line)
            if line in ("accept", "reject"):
                if line == "accept":
                    accepted.append([*numbers])
                    entries = entries and [*entries, network.PERMIT_ALL]
                for after in rest:
                    self.refuse(after, "a statement behind the end of a filter")
                if any(it != accepted[0] for it in accepted):
                    self.refuse(statement, "numbers in front of some routes alone")
                is_open = line == "accept" and not entries
                return Policy(None if is_open else entries, accepted[0] if accepted else numbers)
            if prepended := re.fullmatch(r"bgp_path\.prepend \( (\d+) \)", line):
                numbers.append(Told(prepended[1], statement))
            elif found and self.branch(statement, found[3]) is not None:
                word, more = self.branch(statement, found[3])
                items = [self.element(statement, it) for it in COMMA.split(found[2])]
                if found[1]:  # of the others those that are left are let through, and no more
                    word = {"reject": "permit"}.get(word)
                    if word is None or [self.line(it) for it in rest] != ["accept"]:
                        self.refuse(statement)
                    rest[-1:] = []
                    return Policy([f"permit {it}" for it in items], [*numbers])
                if word == "accept":
                    accepted.append([*numbers, *more])
                words = {"accept": "permit", "reject": "deny"}
                entries += [f"{words[word]} {it}" for it in items]
            else:
                self.refuse(statement)
        self.refuse(whole, "a filter that may end without accept and reject")
        return Policy(None)

    def branch(self, statement, word):
        """How a branch ends, and the numbers that it puts in front; or None."""
        if word:
            return (word, []) if statement.block is None else None
        *first, last = statement.block or [Statement([], statement.place)]
        numbers = []
        for inner in first:
            found = re.fullmatch(r"bgp_path\.prepend \( (\d+) \)", self.line(inner))
            if not found:
                return None
            numbers.append(Told(found[1], inner))
        return (self.line(last), numbers) if self.line(last) in ("accept", "reject") else None

    def element(self, statement, text):
        """An element of a set as the end of an entry: a prefix, which may be followed by `+` or by
        the least and the greatest length that match."""
        text = "".join(text.split())
        found = re.fullmatch(r"([\d./]+)(?:(\+)|\{(\d+),(\d+)\})?", text)
        net = found and network.prefix_of(found[1])
        if not net:
            self.refuse(statement, "a set that has more than prefixes and longer ones")
            return "0.0.0.0/0"
        least, greatest = net.prefixlen, 32 if found[2] else net.prefixlen
        if found[3]:
            least, greatest = int(found[3]), int(found[4])
        if not net.prefixlen <= least <= greatest <= 32:
            self.refuse(statement, "a set that has shorter prefixes, or none")
        longer = f" ge {least}" * (least > net.prefixlen)
        return f"{net}{longer}" + f" le {greatest}" * (greatest > net.prefixlen)

    def static(self, statement):
        """The routes of a static protocol, which are originated."""
        for inner in statement.block or []:
            line = self.line(inner)
            found = re.fullmatch(r"route (\S+) (?:blackhole|unreachable|prohibit)", line)
            if line == "ipv4":
                self.plain_channel(inner)
            elif found:
                self.originate(inner, found[1], self.origin(inner))
            else:
                self.refuse(inner)

    def plain_channel(self, statement):
        for inner in statement.block or []:
            if self.line(inner) not in ("import all", "export none"):
                self.refuse(inner)

    def origin(self, statement):
        origin = "igp"
        for inner in statement.block or []:
            found = re.fullmatch(r"bgp_origin = ORIGIN_(IGP|EGP|INCOMPLETE)", self.line(inner))
            if found:
                origin = found[1].lower()
            else:
                self.refuse(inner)
        return origin

    def originate(self, statement, prefix, origin):
        net = network.prefix_of(prefix)
        if cause := network.own_cause(net):
            self.refuse(statement, cause)
        if net in self.own:
            self.refuse(statement, "a prefix that is there twice")
        self.own[net] = origin

    def direct(self, statement):
        """The interfaces whose networks are originated."""
        inside = [self.line(inner) for inner in statement.block or []]
        if "disabled" in inside or "disabled yes" in inside:
            return
        if not any(line.startswith("interface ") for line in inside):
            self.refuse(statement, "networks of interfaces that aren't named")
        for inner, line in zip(statement.block or [], inside):
            if line == "ipv4":
                self.plain_channel(inner)
            elif re.fullmatch(r'interface -? ?"[^"]*"( , -? ?"[^"]*")*', line):
                self.interfaces.append((inner, re.findall(r'(-?) ?"([^"]*)"', line)))
            else:
                self.refuse(inner)

    def kernel(self, statement):
        """Where routes go from BGP; none comes from there unless they are learnt."""
        for inner in statement.block or []:
            if re.match(r"learn\b|preference\b|disabled\b|.*\btable\b", self.line(inner)):
                self.refuse(inner)
