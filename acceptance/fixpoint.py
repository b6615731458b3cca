#!/usr/bin/env python3
"""Prints the tables that the emulated devices of a plan hold in the end, as a quiet pull prints them.

    acceptance/fixpoint.py PLAN

It is where the cases' tables of whole networks come from, and it knows nothing of the program: no event,
message, mailbox or order. It starts from no routes and lets every device at once take the best of its own
route and of what its neighbours offer it, again and again until nothing changes. A route that is offered
is longer than the one that it was made of, so each time the routes of one more length are settled for good.
It knows no records.
"""
import sys
import tomllib

LONGEST = 255  # AS numbers in a path
ORIGINS = ["igp", "egp", "incomplete"]  # the lowest first (RFC 4271, 4.3)


def address(text):
    """The number that an address stands for."""
    return int.from_bytes(map(int, text.split(".")), "big")


def by_prefix(prefix):
    """Prefixes are ordered by their 32 bits, then by length."""
    front, length = prefix.split("/")
    return address(front), int(length)


def owns(device):
    """The prefixes that the device originates, each with its ORIGIN."""
    return [(own.split() + ["igp"])[:2] for own in device.get("own", [])]


def entry(text):
    """An entry of a prefix list: whether it permits, its prefix, and the least and the greatest
    length that it matches."""
    word, prefix, *bounds = text.split()
    bounds = dict(zip(bounds[0::2], map(int, bounds[1::2])))
    front, length = by_prefix(prefix)
    greatest = bounds.get("le", 32 if "ge" in bounds else length)
    return word == "permit", (front, length), bounds.get("ge", length), greatest


def permits(entries, prefix):
    """Whether a list permits a prefix: the first entry that matches decides, and no match denies.
    No list permits everything."""
    if entries is None:
        return True
    front, length = by_prefix(prefix)
    for permit, (within, common), least, greatest in map(entry, entries):
        if least <= length <= greatest and front >> (32 - common) == within >> (32 - common):
            return permit
    return False


def policies(plan):
    """What a device's plan says of a peer, by the numbers of the two."""
    place = {device["name"]: n for n, device in enumerate(plan["device"])}
    return {
        (n, place[peer["name"]]): peer
        for n, device in enumerate(plan["device"])
        for peer in device.get("peer", [])
    }


def neighbours(plan):
    """For each device the devices at the other ends of its links that are up. A link carries one session,
    and each is with another AS (RFC 7938, 5.2.1)."""
    place = {device["name"]: n for n, device in enumerate(plan["device"])}
    found = [[] for _ in plan["device"]]
    for link in plan.get("link", []):
        if link.get("up", True):
            a, b = place[link["a"]], place[link["b"]]
            found[a].append(b)
            found[b].append(a)
    return found


def rank(device, choice):
    """The lowest is the best (RFC 4271, 9.1.2.2, with one preference for all routes, no
    MULTI_EXIT_DISC and external peers alone): a route of the device's own before all others, then
    a) the fewest AS numbers in AS_PATH, b) the lowest ORIGIN, f) the lowest BGP Identifier of the sender."""
    sender, path, origin = choice
    if sender is None:
        return (0,)
    return 1, len(path), ORIGINS.index(origin), address(device[sender]["id"])


def offered(device, policy, a, b, prefix, path):
    """The path with which `a` offers a prefix to `b`, or None where `b` doesn't take it."""
    told, heard = policy.get((a, b), {}), policy.get((b, a), {})
    if not permits(told.get("export"), prefix) or not permits(heard.get("import"), prefix):
        return None
    # The sender's AS number goes in front (RFC 4271, 5.1.2), as often as its policy says.
    path = (device[a]["asn"],) * (1 + told.get("prepend", 0)) + path
    # A path has so many numbers at most, and no AS loop (RFC 4271, 9.1.2).
    return None if len(path) > LONGEST or device[b]["asn"] in path else path


def best_of_all(device, linked, policy, held):
    """What each device takes where all devices hold `held`. A choice is the number of the device that it
    came from, or None for the device's own, the AS_PATH (empty for the device's own) and the ORIGIN."""
    taken = []
    for b, receiver in enumerate(device):
        choices = {prefix: [(None, (), origin)] for prefix, origin in owns(receiver)}
        for a in linked[b]:
            for prefix, (_, path, origin) in held[a].items():
                path = offered(device, policy, a, b, prefix, path)
                if path is not None:
                    choices.setdefault(prefix, []).append((a, path, origin))
        taken.append({prefix: min(of, key=lambda c: rank(device, c)) for prefix, of in choices.items()})
    return taken


def read(name):
    """The plan of this file."""
    with open(name, "rb") as file:
        plan = tomllib.load(file)
    plan.setdefault("device", [])
    return plan


def fixpoint(plan):
    """For each device the choice that it holds for each prefix in the end."""
    device, linked, policy = plan["device"], neighbours(plan), policies(plan)
    held, before = [{} for _ in device], None
    while held != before:
        held, before = best_of_all(device, linked, policy, held), held
    return held


def tables(plan):
    """The text of the tables of the emulated devices."""
    lines = []
    for device, rows in zip(plan["device"], fixpoint(plan)):
        if device["name"] in plan["emulate"]:
            lines.append(f"table {device['name']}")
            for prefix in sorted(rows, key=by_prefix):
                sender, path, origin = rows[prefix]
                source = "own" if sender is None else f"from {plan['device'][sender]['name']}"
                lines.append(f"{prefix} {source} path {' '.join(map(str, path)) or '-'} origin {origin}")
    return "".join(line + "\n" for line in lines)


if __name__ == "__main__":
    sys.stdout.write(tables(read(sys.argv[1])))
