"""Rows of makers.py for BIRD: the two configurations, and edits with what is refused or made then.
"""

TEXTS = {
    "a.conf": """# the router a
router id 10.9.0.1;
define OWN = 65001;
define WIDE = [ 10.0.0.0/8{8,24} ];
protocol device { }
protocol kernel { ipv4 { export all; import none; }; }
protocol static {
  ipv4;
  route 10.1.1.0/24 blackhole;
  route 10.1.2.0/24 unreachable { bgp_origin = ORIGIN_EGP; };
}
filter outward {
  bgp_path.prepend(OWN);
  if net ~ WIDE then { bgp_path.prepend(65001); accept; }
  reject;
}
template bgp common {
  local as OWN;
  hold time 9;
}
protocol bgp to_b from common {
  local 10.0.0.0 as 65001;
  neighbor 10.0.0.1 as 65002;
  ipv4 {
    import filter {
      if (net ~ [ 10.2.0.0/16{17,30} ]) then reject;
      accept;
    };
    export filter outward;
    next hop self;
  };
}
""",
    "b.conf": """router id 10.9.0.2;
protocol bgp to_a {
  local as 65002;
  neighbor 10.0.0.0 external;
  ipv4 { import all; export all; };
}
""",
}

# Statements that BIRD may have behind these, each with the cause by which it is refused.
LINES = {
    "  hold time 9;\n": [
        ("  rr client;", "iBGP"),
        ("  confederation 7;", "confederations"),
        ("  default bgp_med 5;", "MED"),
        ("  default bgp_local_pref 200;", "LOCAL_PREF"),
        ("  prefer older on;", "other rules of the decision"),
        ("  path metric off;", "other rules of the decision"),
        ("  igp metric off;", "other rules of the decision"),
        ("  med metric on;", "MED"),
        ("  allow local as 2;", "own AS numbers in a path, or other ones"),
        ("  ttl security on;", "a check of the distance"),
        ("  graceful restart on;", "graceful restart"),
        ("  interpret communities off;", "communities"),
        ("  ipv6 { import all; export all; };", "another address family"),
        ("  vrf \"red\";", "VRFs"),
        ("  local role peer;", "a statement that isn't known"),
    ],
    "    next hop self;\n": [
        ("    import limit 9 action block;", "limits on prefixes"),
        ("    preference 150;", "other rules of the decision"),
        ("    gateway recursive;", "other rules of the decision"),
        ("    add paths on;", "several best routes"),
        ("    secondary on;", "several best routes"),
        ("    table other;", "other tables"),
        ("    next hop keep;", "NEXT_HOP"),
    ],
    "  reject;\n": [
        ("  accept;", "a statement behind the end of a filter"),
    ],
    "  if net ~ WIDE then { bgp_path.prepend(65001); accept; }\n": [
        ("  bgp_community.add((1,1));", "communities"),
        ("  bgp_med = 5;", "MED"),
        ("  bgp_local_pref = 200;", "LOCAL_PREF"),
        ("  if source = RTS_STATIC then accept;", "redistribution"),
        ("  if bgp_path ~ [= * 7 =] then accept;", "another filter than by prefixes"),
        ("  if net ~ [ 10.9.0.0/16- ] then reject;",
         "a set that has more than prefixes and longer ones"),
        ("  if net ~ [ 10.9.0.0/16{8,24} ] then reject;",
         "a set that has shorter prefixes, or none"),
        ("  if net = 10.9.0.0/16 then reject;", "another filter than by prefixes"),
        ("  bgp_path.delete(7);", "attributes"),
        ("  if net ~ WIDE then { reject; } else { accept; }", "another filter than by prefixes"),
    ],
    "  route 10.1.1.0/24 blackhole;\n": [
        ("  route 10.3.0.0/16 via 10.0.0.1;", "a route that isn't always there"),
        ("  route 10.3.0.1/16 blackhole;", "no prefix, or one with bits behind its length"),
        ("  route 10.1.1.0/24 unreachable;", "a prefix that is there twice"),
        ("  route 224.1.0.0/16 blackhole;", "a prefix of which daemons take no route"),
        ("  check link;", "a statement that isn't known"),
    ],
    "protocol device { }\n": [
        ("protocol ospf v2 { ipv4; area 0 { }; }", "another routing protocol"),
        ("protocol pipe { table a; peer table b; }", "another routing protocol"),
        ("protocol kernel { learn; }", "redistribution"),
        ("function f() { return true; }", "functions"),
        ("ipv6 table six;", "another address family"),
        ("include \"more.conf\";", "a statement that isn't known"),
        ("define OWN = 7;", "a constant of another form"),
        ("filter some { if net ~ [ 10.0.0.0/8 ] then accept; }",
         "a filter that may end without accept and reject"),
        ("protocol direct { ipv4; }", "networks of interfaces that aren't named"),
        ("protocol direct { ipv4; interface \"eth*\"; }",
         "the network of eth0, whose address isn't told"),
        ("protocol bgp more from nothing { }", "a template that isn't there"),
    ],
}

# What stands in the place of a text, and what is refused then.
REFUSED = [
    ("a.conf", "1 as 65002", "1 as 65001", {"protocol bgp to_b": "iBGP"}),
    ("a.conf", "1 as 65002", "1 internal", {"  neighbor 10.0.0.1": "iBGP"}),
    ("a.conf", "10.0.0.1 as 65002", "fd00::1 as 65002",
     {"  neighbor fd00::1": "another address family"}),
    ("a.conf", "1 as 65002", "1 as 7",
     {"protocol bgp to_b": "another AS number than b has, which is 65002"}),
    ("a.conf", "import filter", "import where source = RTS_BGP; export filter",
     {"    import where": "redistribution"}),
    ("a.conf", "    export filter outward;\n", "",
     {"protocol bgp to_b": "a protocol without export"}),
    ("a.conf", "export filter outward", "import filter outward",
     {"protocol bgp to_b": "a protocol without export"}),
    ("a.conf", "prepend(65001)", "prepend(7)",
     {"  if net": "another number than the own one in front"}),
    ("a.conf", "  reject;\n", "  if net ~ [ 10.7.0.0/16+ ] then accept;\n  reject;\n",
     {"  reject;": "numbers in front of some routes alone"}),
    ("a.conf", "router id 10.9.0.1;\n", "",
     {"# the router a": "no router id that is an address"}),
    ("b.conf", "  local as 65002;\n", "",
     {"protocol bgp": "a protocol without own AS number"}),
    ("a.conf", "  local 10.0.0.0 as 65001;\n", "  local 10.0.0.0 as 7;\n",
     {"  if net": "another number than the own one in front",
      "  bgp_path": "another number than the own one in front"}),
    ("a.conf", "protocol bgp to_b", "protocol bgp to_c { local as OWN; neighbor 10.0.0.9 as 7; "
     "multihop; ipv4 { import all; export all; }; }\nprotocol bgp to_b",
     {"protocol bgp to_c": "multihop beside others, by which distance decides first"}),
    ("b.conf", "10.0.0.0 external", "10.0.0.9 external",
     {"protocol bgp": "a peer whose address no device has",
      "a.conf protocol bgp to_b": "a session that b doesn't have with this address"}),
    ("b.conf", "  local as 65002;\n", "  local as 65002;\n  password \"x\";\n",
     {"protocol bgp": "another password than a has",
      "a.conf protocol bgp to_b": "another password than b has"}),
]

MADE = [
    ("b.conf", "local as", "local 10.0.0.1 as", "", ""),
    ("b.conf", "local as", "source address 10.0.0.1;\n  local as", "", ""),
    ("a.conf", "  local 10.0.0.0", "  disabled;\n  local 10.0.0.0",
     'b = "b"\n', 'b = "b"\nup = false\n'),
    ("a.conf", "then reject;\n      accept;", "then accept;\n      reject;",
     '"deny 10.2.0.0/16 ge 17 le 30", "permit 0.0.0.0/0 le 32"',
     '"permit 10.2.0.0/16 ge 17 le 30"'),
    ("b.conf", "import all; export all;", "import none; export where net ~ [ 10.0.0.0/8+ ];",
     'id = "10.9.0.2"\n', 'id = "10.9.0.2"\n[[device.peer]]\nname = "a"\nimport = []\n'
     'export = ["permit 10.0.0.0/8 le 32"]\n'),
    ("b.conf", "protocol bgp",
     "protocol direct { ipv4; interface \"eth3\", \"lo\"; }\nprotocol bgp",
     'layer = 2\nasn = 65002\nid = "10.9.0.2"\n',
     'layer = 1\nasn = 65002\nid = "10.9.0.2"\nown = ["10.0.0.0/31"]\n'),
    ("a.conf", "if net ~ WIDE then { bgp_path.prepend(65001); accept; }\n  reject;",
     "bgp_path.prepend(OWN);\n  if net !~ WIDE then reject;\n  accept;", "", ""),
]
