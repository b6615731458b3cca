"""Rows of makers.py for FRR: the two configurations, and edits with what is refused or made then.
"""

TEXTS = {
    "a.conf": """frr version 8.4
frr defaults traditional
hostname a
!
ip prefix-list IN seq 10 permit any
ip prefix-list IN seq 5 deny 10.2.0.0/16 ge 17 le 30
ip prefix-list OUT permit 10.0.0.0/8 le 24
route-map MORE permit 10
 set as-path prepend 65001 65001
exit
route-map EGP permit 10
 set origin egp
exit
interface eth1
 ip address 10.0.0.0/31
exit
interface lo
 ip address 10.1.1.1/24
exit
ip route 10.1.2.0/24 blackhole
router bgp 65001
 bgp router-id 10.9.0.1
 bgp bestpath compare-routerid
 neighbor 10.0.0.1 remote-as 65002
 neighbor 10.0.0.1 description up
 !
 address-family ipv4 unicast
  network 10.1.1.0/24
  network 10.1.2.0/24 route-map EGP
  neighbor 10.0.0.1 prefix-list IN in
  neighbor 10.0.0.1 prefix-list OUT out
  neighbor 10.0.0.1 route-map MORE out
  maximum-paths 4
 exit-address-family
exit
end
""",
    "b.conf": """router bgp 65002
 bgp router-id 10.9.0.2
 no bgp ebgp-requires-policy
 neighbor 10.0.0.0 remote-as external
exit
""",
}

# Lines that FRR may have behind these, each with the cause by which it is refused.
LINES = {
    " bgp bestpath compare-routerid\n": [
        (" bgp cluster-id 1.1.1.1", "iBGP"),
        (" bgp confederation identifier 7", "confederations"),
        (" bgp always-compare-med", "MED"),
        (" bgp bestpath med missing-as-worst", "MED"),
        (" bgp default local-preference 200", "LOCAL_PREF"),
        (" bgp bestpath as-path multipath-relax as-set", "several best routes"),
        (" bgp bestpath as-path ignore", "other rules of the decision"),
        (" bgp listen range 10.0.0.0/8 peer-group G", "sessions that are told by a range"),
        (" bgp graceful-restart", "graceful restart or shutdown"),
        (" bgp dampening", "damping"),
        (" bgp default shutdown", "a session that is shut by default"),
        (" bgp suppress-fib-pending", "waiting for the forwarding table"),
        (" no bgp fast-convergence", "a line that isn't known"),
        (" neighbor fd00::1 remote-as 65002", "a neighbor that is no address of IPv4"),
        (" neighbor 10.0.0.1 local-as 7", "own AS numbers in a path, or other ones"),
        (" neighbor 10.0.0.1 ttl-security hops 1", "a check of the distance"),
        (" neighbor 10.0.0.1 peer-group G", "a group that isn't there"),
        (" neighbor 10.0.0.1 remote-as auto", "a line that isn't known"),
        (" network 127.1.0.0/16 backdoor", "a line that isn't known"),
        (" address-family ipv6 unicast\n  neighbor x activate\n exit-address-family",
         "another address family"),
    ],
    "  maximum-paths 4\n": [
        ("  neighbor 10.0.0.1 route-reflector-client", "iBGP"),
        ("  maximum-paths ibgp 2", "iBGP"),
        ("  neighbor 10.0.0.1 weight 5", "weights"),
        ("  neighbor 10.0.0.1 addpath-tx-all-paths", "several best routes"),
        ("  aggregate-address 10.0.0.0/8", "aggregation"),
        ("  redistribute connected", "redistribution"),
        ("  neighbor 10.0.0.1 default-originate", "redistribution"),
        ("  neighbor 10.0.0.1 allowas-in", "own AS numbers in a path, or other ones"),
        ("  neighbor 10.0.0.1 as-override", "own AS numbers in a path, or other ones"),
        ("  neighbor 10.0.0.1 remove-private-AS", "own AS numbers in a path, or other ones"),
        ("  neighbor 10.0.0.1 attribute-unchanged", "NEXT_HOP"),
        ("  neighbor 10.0.0.1 filter-list F in", "other lists"),
        ("  neighbor 10.0.0.1 distribute-list F in", "other lists"),
        ("  neighbor 10.0.0.1 maximum-prefix 9", "limits on prefixes"),
    ],
    " set as-path prepend 65001 65001\n": [
        (" set community 1:1", "communities"),
        (" set metric 5", "MED"),
        (" set local-preference 200", "LOCAL_PREF"),
        (" set ip next-hop 10.0.0.9", "NEXT_HOP"),
        (" set as-path exclude 7", "another number than the own one in front"),
        (" set as-path prepend last-as 2", "another number than the own one in front"),
        (" match ip address prefix-list IN", "a route map that does more"),
        (" on-match next", "a route map that does more"),
    ],
    " ip address 10.0.0.0/31\n": [
        (" ip ospf cost 5", "another routing protocol"),
        (" vrf red", "VRFs and views"),
        (" ip address dhcp", "no address of IPv4"),
    ],
    "end\n": [
        ("bgp community-list standard C permit 1:1", "communities"),
        ("ipv6 prefix-list L seq 5 permit any", "another address family"),
        ("access-list A permit 10.0.0.0/8", "other lists"),
        ("router ospf\n network 10.0.0.0/8 area 0\nexit", "another routing protocol"),
        ("vrf red\n ip route 10.0.0.0/8 blackhole\nexit-vrf", "VRFs and views"),
        ("router bgp 65001 vrf red\n bgp router-id 1.1.1.1\nexit", "VRFs and views"),
        ("router bgp 7", "a second AS number"),
        ("route-map MORE permit 20", "a route map that does more"),
        ("ip prefix-list OUT seq 9 permit 10.0.0.0/8 le 24",
         "an entry that is there twice, or has the number of another"),
        ("hostnam a", "a line that isn't known"),
        ("no service integrated-vtysh-config", "a line that isn't known"),
    ],
}

ROUTE = "a network that no interface and no static route has, without no bgp network import-check"
POLICIES = [f"no policy {word}, without no bgp ebgp-requires-policy" for word in ("in", "out")]
NUMBER = "another number than the own one, or too many"

# What stands in the place of a text, and what is refused then.
REFUSED = [
    ("a.conf", "1 remote-as 65002", "1 remote-as 65001", {" neighbor 10.0.0.1 remote": "iBGP"}),
    ("a.conf", "1 remote-as 65002", "1 remote-as internal", {" neighbor 10.0.0.1 remote": "iBGP"}),
    ("a.conf", "1 remote-as 65002", "1 remote-as 7",
     {" neighbor 10.0.0.1 remote": "another AS number than b has, which is 65002"}),
    ("a.conf", "1 remote-as 65002", "1 port 179", {" neighbor": "a neighbor without remote-as"}),
    ("a.conf", "description up", "update-source 10.7.0.1",
     {" neighbor": "a source that no interface has"}),
    ("a.conf", "description up", "update-source lo",
     {" neighbor": "a session that b doesn't have with this address",
      "b.conf neighbor": "a session that a doesn't have with this address"}),
    ("a.conf", "bgp 65001", "bgp 0", {"router bgp": "no AS number", " set as-path": NUMBER}),
    # route maps
    ("a.conf", "prepend 65001 65001", "prepend 65001 7", {" set as-path": NUMBER}),
    ("a.conf", "prepend 65001", "prepend" + 255 * " 65001", {" set as-path": NUMBER}),
    ("a.conf", "map MORE permit", "map MORE deny",
     {"route-map MORE": "a route map that does more",
      "  neighbor 10.0.0.1 route-map": "a route map that isn't there"}),
    ("a.conf", "route-map MORE out", "route-map EGP out",
     {"  neighbor 10.0.0.1 route-map": "a route map that does more than a plan says (origin)"}),
    ("a.conf", "route-map MORE out", "route-map MORE in",
     {"  neighbor 10.0.0.1 route-map": "a route map that does more than a plan says (prepend)"}),
    ("a.conf", "4 route-map EGP", "4 route-map MORE",
     {"  network 10.1.2": "a route map that does more than a plan says (prepend)"}),
    # prefix lists: one that isn't there denies all to some versions, and permits all to others
    ("a.conf", "prefix-list IN in", "prefix-list NONE in",
     {"  neighbor 10.0.0.1 prefix-list NONE": "a prefix list without entries"}),
    ("a.conf", "ip prefix-list OUT permit 10.0.0.0/8 le 24", "ip prefix-list OUT description x",
     {"  neighbor 10.0.0.1 prefix-list OUT": "a prefix list without entries"}),
    ("a.conf", "ge 17 le", "ge 15 le", {"ip prefix-list IN seq 5": "lengths that aren't in order"}),
    ("a.conf", "ge 17 le", "ge 31 le", {"ip prefix-list IN seq 5": "lengths that aren't in order"}),
    ("a.conf", "17 le 30", "33", {"ip prefix-list IN seq 5": "lengths that aren't in order"}),
    ("a.conf", "ge 17 le 30", "ge 17 le 30 x", {"ip prefix-list IN seq 5":
     "an entry of another form, or with bits behind its prefix's length"}),
    ("a.conf", "deny 10.2.0.0/16", "deny 10.2.1.0/16", {"ip prefix-list IN seq 5":
     "an entry of another form, or with bits behind its prefix's length"}),
    ("a.conf", "seq 5 deny", "seq 10 deny", {"ip prefix-list IN seq 10 deny":
     "an entry that is there twice, or has the number of another"}),
    # what FRR does by default
    ("b.conf", " no bgp ebgp-requires-policy\n", "", {" neighbor": POLICIES}),
    ("b.conf", " no bgp ebgp", " bgp ebgp", {" neighbor": POLICIES}),
    ("a.conf", "bestpath compare-routerid\n",
     "log-neighbor-changes\n neighbor 10.0.0.7 remote-as 7\n neighbor 10.0.0.7 shutdown\n",
     {"router bgp":
      "no bgp bestpath compare-routerid, without which the oldest route is the best",
      " neighbor 10.0.0.7": POLICIES}),
    ("a.conf", "ip route 10.1.2.0/24 blackhole\n", "", {"  network 10.1.2": ROUTE}),
    ("a.conf", "/24 blackhole", "/24 10.0.0.1", {"  network 10.1.2": ROUTE}),
    ("a.conf", "/24 blackhole", "/24 blackhole 200", {"  network 10.1.2": ROUTE}),
    ("a.conf", "interface lo", "interface dummy0", {"  network 10.1.1": ROUTE}),
    ("a.conf", "interface lo", "interface lo\n shutdown", {"  network 10.1.1": ROUTE}),
    ("a.conf", "compare-routerid\n", "compare-routerid\n no bgp default ipv4-unicast\n",
     {" neighbor": "a neighbor that isn't active for IPv4 unicast"}),
    # devices
    ("a.conf", " bgp router-id 10.9.0.1\n", "",
     {"router bgp": "no bgp router-id that is an address"}),
    ("a.conf", "10.9.0.1", "10.9.0.256", {" bgp router": "no bgp router-id that is an address"}),
    ("b.conf", "10.9.0.2", "10.9.0.1", {"router bgp": "the router id 10.9.0.1, which a has too"}),
    ("b.conf", TEXTS["b.conf"], "hostname b\n", {"hostname": "there is no router bgp"}),
    ("a.conf", "network 10.1.1.0/24", "network 10.0.0.0",
     {"  network 10.0.0.0": [ROUTE, "no prefix, or one with bits behind its length"]}),
    ("a.conf", "network 10.1.1.0/24\n", "network 10.1.2.0/24\n",
     {"  network 10.1.2.0/24 route": "a prefix that is there twice"}),
    ("a.conf", "network 10.1.1.0/24", "network 10.1.1.1/24",
     {"  network 10.1.1.1": [ROUTE, "no prefix, or one with bits behind its length"]}),
    ("a.conf", "compare-routerid\n", "compare-routerid\n no bgp network import-check\n"
     " network 127.1.0.0/16\n", {" network 127": "a prefix of which daemons take no route"}),
    # sessions
    ("a.conf", "description up", "password x",
     {" neighbor": "another password than b has",
      "b.conf neighbor": "another password than a has"}),
    ("a.conf", " ip address 10.0.0.0/31\n", "",
     {" neighbor": "a peer in no network of an interface",
      "b.conf neighbor": "a peer whose address no device has"}),
    ("b.conf", "10.0.0.0 remote-as", "10.0.0.7 remote-as",
     {" neighbor": "a peer whose address no device has",
      "a.conf neighbor": "a session that b doesn't have with this address"}),
    ("b.conf", "10.0.0.0 remote-as", "10.0.0.1 remote-as",
     {" neighbor": "a peer that is the device itself",
      "a.conf neighbor": "a session that b doesn't have with this address"}),
    ("b.conf", "10.0.0.0 remote-as", "eth9 interface remote-as",
     {" neighbor": "a peer behind no link",
      "a.conf neighbor": "a session that b doesn't have with this address"}),
    ("b.conf", " neighbor 10.0.0.0 remote-as external\n", "",
     {"a.conf neighbor": "a session that b doesn't have with this address"}),
]

# What a plan has in the place of others of its lines where a text is another.
MADE = [
    ("a.conf", "description up", "shutdown", 'b = "b"\n', 'b = "b"\nup = false\n'),
    ("b.conf", "exit\n", "interface eth3\n shutdown\nexit\n", 'b = "b"\n', 'b = "b"\nup = false\n'),
    ("a.conf", "remote-as 65002", "remote-as external", "", ""),
    ("a.conf", "description up", "update-source 10.0.0.0", "", ""),
    ("a.conf", "description up", "update-source eth1", "", ""),
    ("a.conf", "defaults traditional", "defaults datacenter", "", ""),
    ("a.conf", "  neighbor 10.0.0.1 prefix-list OUT out\n", "",
     'export = ["permit 10.0.0.0/8 le 24"]\n', ""),
    # a group's words, where the peer has none of its own
    ("a.conf", " neighbor 10.0.0.1 remote-as 65002\n", " neighbor G peer-group\n"
     " neighbor G remote-as external\n neighbor G prefix-list OUT in\n"
     " neighbor 10.0.0.1 peer-group G\n", "", ""),
    # what is read in the context around it
    ("a.conf", "  maximum-paths 4\n exit-address-family\nexit\n", "interface eth7\n", "", ""),
    ("b.conf", " no bgp ebgp-requires-policy\n", " no bgp network import-check\n"
     " no bgp ebgp-requires-policy\n network 10.7.0.0/16\n",
     'layer = 2\nasn = 65002\nid = "10.9.0.2"\n',
     'layer = 1\nasn = 65002\nid = "10.9.0.2"\nown = ["10.7.0.0/16"]\n'),
]
