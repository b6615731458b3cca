"""Texts of cases that would be too long for a table: plans at the limits, what they print, the
traces of two devices that exchange more than a message holds, and long paths."""

MOST_PREFIXES = 16384

# The most octets of an UPDATE, and those beside its prefixes where it announces: its header with
# the lengths of its parts, ORIGIN, AS_PATH of one segment, and NEXT_HOP (RFC 4271, 4.1 and 4.3).
# Each number of the path has four more.
MESSAGE, FRONT, NUMBER = 4096, 23 + 4 + (3 + 2) + 7, 4


def device(name, layer, asn, address, own=()):
    """The lines of a device."""
    lines = ["[[device]]", f'name = "{name}"', f"layer = {layer}", f"asn = {asn}"]
    lines.append(f'id = "{address}"')
    if own:
        lines.append("own = [" + ", ".join(f'"{prefix}"' for prefix in own) + "]")
    return lines


def plan(emulated, lines):
    """A plan that emulates these devices."""
    names = ", ".join(f'"{name}"' for name in emulated)
    return "".join(line + "\n" for line in ["version = 1", f"emulate = [{names}]", *lines])


def certified(emulated):
    """What `plan` prints where all devices are emulated."""
    lines = [f"certified emulated {len(emulated)} islands 0"]
    return "".join(line + "\n" for line in lines + [f"emulate {name}" for name in emulated])


def numbered(count):
    """The names of so many devices."""
    return [f"d{n}" for n in range(count)]


def lone(count):
    """So many devices, all emulated, without links and prefixes."""
    lines = []
    for n, name in enumerate(numbered(count)):
        lines += device(name, 1, n + 1, f"10.0.{n // 256}.{n % 256}")
    return plan(numbered(count), lines)


def slash_24s(count):
    """So many prefixes of length 24, in their order."""
    return [f"10.{n // 256}.{n % 256}.0/24" for n in range(count)]


def star(count, most=MOST_PREFIXES):
    """A device h that is linked to so many others, all emulated. As many prefixes as may be, or so
    many, are dealt out to the others in turn, so that there are 2 * count * 16,384 rows."""
    prefixes = slash_24s(most)
    lines, names = device("h", 2, 1, "10.255.0.1"), numbered(count)
    for n, name in enumerate(names):
        lines += device(name, 1, n + 2, f"10.254.{n // 256}.{n % 256}", prefixes[n::count])
    for name in names:
        lines += ["[[link]]", 'a = "h"', f'b = "{name}"']
    return plan(["h", *names], lines)


# ---- more than a message holds


def uneven(count):
    """Prefixes of which one is long and the last is short, with so many of length 24 between."""
    return ["10.0.0.0/16", *slash_24s(count), "200.0.0.0/8"]


def pair(prefixes):
    """The devices l1 and t1, both emulated. t1 originates these prefixes."""
    lines = device("l1", 2, 65201, "10.0.1.1") + device("t1", 1, 65101, "10.0.0.1", prefixes)
    return plan(["l1", "t1"], [*lines, "[[link]]", 'a = "t1"', 'b = "l1"'])


def messages(prefixes, numbers):
    """The prefixes of each message that announces them, with so many numbers in the path: the first
    that doesn't fit ends a message, also where one behind it would."""
    found, room = [], 0
    for prefix in prefixes:
        size = 1 + (int(prefix.split("/")[1]) + 7) // 8
        if size > room:
            found.append([])
            room = MESSAGE - FRONT - NUMBER * numbers
        found[-1].append(prefix)
        room -= size
    return found


def pair_trace(prefixes):
    """The trace of these two, until they are quiet, and of a pull. l1 comes first. So it decides
    what came in one message before t1 sends the next, and sends back what it decided, with one more
    number in the path, before t1 decides anything of that."""
    lines = ["trace 1", *(f"decide t1 {prefix}" for prefix in prefixes)]
    for message in messages(prefixes, 1):
        lines += ["send t1 l1", "receive t1 l1", *(f"decide l1 {prefix}" for prefix in message)]
        for _ in messages(message, 2):
            lines += ["send l1 t1", "receive l1 t1"]
        lines += [f"decide t1 {prefix}" for prefix in message]
    return "".join(line + "\n" for line in [*lines, "mark 1", "mark 2"])


def pair_answers(prefixes):
    """What is answered to both commands."""
    lines = ["1 work done", "2 pull quiet", "table l1"]
    lines += [f"{prefix} from t1 path 65101 origin igp" for prefix in prefixes]
    lines += ["table t1", *(f"{prefix} own path - origin igp" for prefix in prefixes)]
    return "".join(line + "\n" for line in lines)


def prepended(count):
    """What a rack t1, a leaf l1 and a spine s1 in a line show where the rack offers its prefix with
    so many copies of its number. The leaf's number makes a path one longer, and 255 is the most."""
    path = " ".join(["65101"] * count)
    lines = ["1 work done", "2 pull quiet", "table t1", "10.1.1.0/24 own path - origin igp"]
    lines += ["table l1", f"10.1.1.0/24 from t1 path {path} origin igp", "table s1"]
    if count < 255:
        lines.append(f"10.1.1.0/24 from l1 path 65201 {path} origin igp")
    return "".join(line + "\n" for line in lines)


MAKERS = {
    "lone": lone,
    "lone-certified": lambda count: certified(numbered(count)),
    "prepended": prepended,
    "star": star,
    "star-certified": lambda count: certified(["h", *numbered(count)]),
    "pair": lambda count: pair(slash_24s(count)),
    "pair-trace": lambda count: pair_trace(slash_24s(count)),
    "pair-answers": lambda count: pair_answers(slash_24s(count)),
    "uneven-pair": lambda count: pair(uneven(count)),
    "uneven-pair-trace": lambda count: pair_trace(uneven(count)),
    "uneven-pair-answers": lambda count: pair_answers(uneven(count)),
}
