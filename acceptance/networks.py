"""Networks for cover.py as tables of a plan, and their texts: a fabric, made up and small ones."""
import json
import random


def text(plan):
    """The text of a plan, which may have any values that TOML writes as JSON does."""
    def inline(found):
        if isinstance(found, dict):
            return "{ " + ", ".join(f"{key} = {inline(it)}" for key, it in found.items()) + " }"
        if isinstance(found, list):
            return "[" + ", ".join(map(inline, found)) + "]"
        return json.dumps(found)

    lines = ["version = 1"]
    lines += [f"{key} = {inline(plan[key])}" for key in ("must", "emulate") if key in plan]
    for name in ("device", "link", "record"):
        for table in plan.get(name, []):
            lines += [f"[[{name}]]", *(f"{key} = {inline(it)}" for key, it in table.items())]
    return "".join(line + "\n" for line in lines)


def device(name, layer, asn, address, own=(), peer=()):
    found = {"name": name, "layer": layer, "asn": asn, "id": address}
    return found | ({"own": list(own)} if own else {}) | ({"peer": list(peer)} if peer else {})


def fabric(pods=3, leaves=2, racks=3, spines=2):
    """A fabric (RFC 7938, 3.2 and 5.2.1). Each rack has an AS number of its own, and one or two
    prefixes, which it offers to a leaf with copies of its number. A link of it is down."""
    devices, links = [], []
    for pod in range(pods):
        for rack in range(racks):
            k = pod * racks + rack
            own = [f"10.{n}.{k}.0/24" for n in range(1 + k % 2)]
            peer = [{"name": f"p{pod}l0", "prepend": k % 3}]
            devices.append(
                device(f"p{pod}r{rack}", 1, 4200010000 + k, f"172.16.1.{k + 1}", own, peer)
            )
        for leaf in range(leaves):
            address = f"172.16.2.{pod * leaves + leaf}"
            devices.append(device(f"p{pod}l{leaf}", 2, 4200000001 + pod, address))
            links += [{"a": f"p{pod}r{rack}", "b": f"p{pod}l{leaf}"} for rack in range(racks)]
            links += [{"a": f"p{pod}l{leaf}", "b": f"s{spine}"} for spine in range(spines)]
    devices += [device(f"s{n}", 3, 4200000000, f"172.16.3.{n}") for n in range(spines)]
    links[0]["up"] = False
    return {"emulate": [it["name"] for it in devices], "device": devices, "link": links}


def lists(draw, count):
    """What a device says of a peer: it denies some prefixes, and puts copies in front."""
    found = {}
    for key in ("import", "export"):
        if draw.random() < 0.3:
            denied = f"deny 10.{draw.randrange(count)}.0.0/16 le {draw.randint(16, 32)}"
            found[key] = [denied, "permit 0.0.0.0/0 le 32"]
    if draw.random() < 0.4:
        found["prepend"] = draw.choice([0, 1, 2, 3, 252])
    return found


def made_up(seed):
    """A network of few links and few AS numbers, with policies."""
    draw = random.Random(seed)
    count = draw.randint(9, 14)
    devices, links = [], []
    for n in range(count):
        own = [f"10.{n}.{k}.0/24" + draw.choice(["", " egp"]) for k in range(draw.randint(0, 2))]
        address, asn = f"10.0.{draw.randint(0, 255)}.{n}", draw.randint(1, count)
        devices.append(device(f"d{n}", draw.randint(1, 3), asn, address, own))
        for other in draw.sample(range(n), min(n, draw.choice([1, 1, 1, 2]))):
            if devices[other]["asn"] != asn:
                links.append({"a": f"d{n}", "b": f"d{other}", "up": draw.random() < 0.85})
                devices[n].setdefault("peer", []).append({"name": f"d{other}"} | lists(draw, count))
    return {"emulate": [it["name"] for it in devices], "device": devices, "link": links}


def network(systems, links):
    """Devices a, b, c, .. of layer 1 with these AS numbers, each with a prefix."""
    names = "abcdef"[:len(systems)]
    devices = [
        device(name, 1, asn, f"10.0.0.{n}", [f"10.{n}.0.0/16"])
        for n, (name, asn) in enumerate(zip(names, systems))
    ]
    return {"device": devices, "link": [{"a": a, "b": b} for a, b in links],
            "emulate": [*names]}
