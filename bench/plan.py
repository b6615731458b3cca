"""Called by plan.sh with the path of the program and the size of the worst shapes. See there."""
import os
import pathlib
import subprocess
import sys
import tempfile
import time

READ = "import sys, tomllib\nwith open(sys.argv[1], 'rb') as f: tomllib.load(f)\n"


# ---- texts


def listed(words):
    return "[" + ", ".join(f'"{word}"' for word in words) + "]"


def prefix_of(number):
    return f"10.{number // 256}.{number % 256}.0/24"


def device_text(number, name, layer, asn, own=()):
    """A device whose router id counts up with its number."""
    address = f"172.16.{number // 256}.{number % 256}"
    text = f'[[device]]\nname = "{name}"\nlayer = {layer}\nasn = {asn}\nid = "{address}"\n'
    return text + f"own = {listed(own)}\n" if own else text


def peer_text(name):
    """A policy for this peer, which lets all through that the plans have."""
    lists = {"import": ["deny 10.0.0.0/8 ge 25", "permit 0.0.0.0/0 le 32"]}
    lists["export"] = ["permit 10.0.0.0/8 ge 16 le 24", "permit 172.16.0.0/12"]
    text = "".join(f"{key} = {listed(entries)}\n" for key, entries in lists.items())
    return f'[[device.peer]]\nname = "{name}"\n{text}prepend = 1\n'


def link_text(a, b):
    return f'[[link]]\na = "{a}"\nb = "{b}"\n'


def record_text(name, prefix, path, sender=""):
    text = f'[[record]]\ndevice = "{name}"\nprefix = "{prefix}"\npath = "{path}"\norigin = "igp"\n'
    return text + f'from = "{sender}"\n' if sender else text


# ---- a plan at the limits

PODS, LEAVES, RACKS, SPINES = 2, 4, 2040, 8
# The racks that must be emulated: they grow to 1,024 devices. They alone originate prefixes, so
# that no record is needed, and as many as may be without too many rows.
GIVEN = 1024 - LEAVES - SPINES
PREFIXES = 1024


def fabric():
    """Devices (name, layer, AS number) and links of a fabric of racks, leaves and spines."""
    devices, links = [], []
    for pod in range(PODS):
        devices += [(f"p{pod}r{j}", 1, 4200010000 + pod * RACKS + j) for j in range(RACKS)]
        devices += [(f"p{pod}l{j}", 2, 4200000001 + pod) for j in range(LEAVES)]
        links += [(f"p{pod}r{r}", f"p{pod}l{l}") for r in range(RACKS) for l in range(LEAVES)]
    devices += [(f"s{j}", 3, 4200000000) for j in range(SPINES)]
    for pod in range(PODS):
        links += [(f"p{pod}l{l}", f"s{s}") for l in range(LEAVES) for s in range(SPINES)]
    return devices, links


def plan(policies=False):
    """A plan at the limits, whose emulated devices are to grow. With policies, each device has one
    for each peer of its first two links."""
    devices, links = fabric()
    peers = {name: [] for name, _, _ in devices}
    for a, b in links if policies else []:
        for one, other in ((a, b), (b, a)):
            if len(peers[one]) < 2:
                peers[one].append(peer_text(other))
    given = [f"p0r{j}" for j in range(GIVEN)]
    own = {name: [] for name in given}
    for n in range(PREFIXES):
        own[given[n % len(given)]].append(prefix_of(n))
    text = [f"version = 1\nmust = {listed(given)}\n"]
    for n, device in enumerate(devices):
        text += [device_text(n, *device, own.get(device[0], ())), *peers[device[0]]]
    return "".join(text + [link_text(a, b) for a, b in links])


# ---- a fabric of pods with records

# Pods, leaves and racks of each, spines, and the number of the first rack's prefix.
RECORDED = (16, 8, 32, 16, 3)


def recorded_plan(shape=RECORDED):
    """A plan of that fabric with sound records, and how many records it has. The first rack is
    emulated, with the leaves of its pod and the spines. An outside rack or leaf holds for each
    prefix of a rack of its pod, where the emulated devices are away: a rack its own, a leaf the
    rack's, and another rack that of the first leaf, which has the lowest router id. The racks
    beside the emulated one are islands of one device each."""
    shift, in_pod = shape[4], shape[2]
    pods, leaves, racks, spines = map(range, shape[:4])
    device, link, record = [], [], []

    def add(name, layer, asn, own=()):
        device.append(device_text(len(device) + 1, name, layer, asn, own))

    def hold(*row):
        record.append(record_text(*row))

    def prefix(pod, rack):
        return prefix_of(shift + pod * in_pod + rack)

    def system(pod, rack):
        return 4200010000 + pod * in_pod + rack

    for i in pods:
        for j in racks:
            add(f"p{i}r{j}", 1, system(i, j), [prefix(i, j)])
        for j in leaves:
            add(f"p{i}l{j}", 2, 4200000001 + i)
    for j in spines:
        add(f"s{j}", 3, 4200000000)
    for i in pods:
        link += [link_text(f"p{i}r{r}", f"p{i}l{l}") for r in racks for l in leaves]
        link += [link_text(f"p{i}l{l}", f"s{s}") for l in leaves for s in spines]
    for j in racks[1:]:
        hold(f"p0r{j}", prefix(0, j), "-")
    for i in pods[1:]:
        for j in racks:
            for r in racks:
                if r == j:
                    hold(f"p{i}r{r}", prefix(i, j), "-")
                else:
                    path = f"{4200000001 + i} {system(i, j)}"
                    hold(f"p{i}r{r}", prefix(i, j), path, f"p{i}l0")
            for l in leaves:
                hold(f"p{i}l{l}", prefix(i, j), f"{system(i, j)}", f"p{i}r{j}")
    emulated = ["p0r0"] + [f"p0l{j}" for j in leaves] + [f"s{j}" for j in spines]
    front = f"version = 1\nemulate = {listed(emulated)}\n"
    return front + "".join(device + link + record), len(record)


# ---- the worst shapes for the check of records

# In each, the first device is emulated and the others are one island. A shape is its title, the
# text of its plan, and what the program must answer: the status and the first line. None of these
# answers comes from the program.
LONGEST = 255  # AS numbers in a path


def island_plan(systems, links, own, record=()):
    """A plan of devices d0, d1, .. with these AS numbers, of which d0 is emulated."""
    text = ['version = 1\nemulate = ["d0"]\n']
    for n, asn in enumerate(systems):
        text.append(device_text(n, f"d{n}", 1, asn, own.get(n, ())))
    text += [link_text(f"d{a}", f"d{b}") for a, b in links]
    return "".join(text) + "".join(record)


def chain_of_two_numbers(devices, prefixes):
    """A chain whose AS numbers are 1, 2, 1, 2, .., with prefixes at all outside devices and the
    records that are sound. A device offers its own prefix to its neighbours with its number alone,
    which isn't theirs. They offer it on with both numbers, and the next device, which has the
    origin's, refuses it as a loop. So beside the origin its outside neighbours hold the prefix,
    and nobody else. What makes it bad is all that doesn't happen: each prefix reaches three
    devices out of all."""
    systems = [1 + n % 2 for n in range(devices)]
    own, record = {}, []
    for k in range(prefixes):
        origin, prefix = 1 + k % (devices - 1), prefix_of(k)
        own.setdefault(origin, []).append(prefix)
        record.append(record_text(f"d{origin}", prefix, "-"))
        for n in (origin - 1, origin + 1):
            if 1 <= n < devices:
                record.append(record_text(f"d{n}", prefix, systems[origin], f"d{origin}"))
    links = [(n, n + 1) for n in range(devices - 1)]
    wanted = 0, "certified emulated 1 islands 1"
    return "chain of AS 1, 2, 1, 2", island_plan(systems, links, own, record), wanted


def chain_of_distinct_numbers(devices, prefixes):
    """A chain in which each device has an AS number of its own, all prefixes are at its far end
    and nothing is recorded. A prefix reaches as many devices before its end as a path has numbers,
    and the first of them is the first that has no record of what it holds. What makes it bad: a
    route goes on by one device at a time, against the order of the devices, so each round of
    decisions in their order brings it one further. And the island's least device holds nothing, so
    no prefix settles which device is named before all are looked at."""
    end = devices - 1
    first = max(1, end - LONGEST)
    path = " ".join(str(n + 1) for n in range(first + 1, devices))
    held = f"from d{first + 1} path {path} origin igp"
    text = island_plan(
        [n + 1 for n in range(devices)],
        [(n, n + 1) for n in range(devices - 1)],
        {end: [prefix_of(k) for k in range(prefixes)]},
    )
    wanted = 1, f"refused record d{first} {prefix_of(0)}: held none wanted {held}"
    return "chain of distinct AS", text, wanted


def star(devices, prefixes):
    """A star of devices that all have the AS number 1 round a hub, d2, that has 2; all prefixes
    are at the last of them and nothing is recorded. The hub takes each route and offers it to all
    others, and they all refuse it as a loop, since the origin's number is theirs. What makes it
    bad: with each prefix the hub changes, so that each device has something new to decide, and
    none ever holds anything. The island's least device, d1, is one of them, so no prefix settles
    which device is named before all are looked at. The hub stands before the origin, so it hears
    of a prefix in the second round of decisions."""
    hub, end = 2, devices - 1
    systems = [3, 1, 2] + [1] * (devices - 3)
    links = [(hub, n) for n in range(devices) if n != hub]
    text = island_plan(systems, links, {end: [prefix_of(k) for k in range(prefixes)]})
    held = f"from d{end} path 1 origin igp"
    wanted = 1, f"refused record d{hub} {prefix_of(0)}: held none wanted {held}"
    return "star of one AS round a hub", text, wanted


WORST = (chain_of_two_numbers, chain_of_distinct_numbers, star)


# ---- runs


def measured(words):
    """Seconds, peak octets, status and the first line of the output of a run."""
    start = time.perf_counter()
    child = subprocess.Popen(words, stdin=subprocess.DEVNULL, stdout=subprocess.PIPE)
    line = child.stdout.readline().decode().rstrip("\n")
    child.stdout.read()
    _, status, usage = os.wait4(child.pid, 0)
    child.returncode = os.waitstatus_to_exitcode(status)
    return time.perf_counter() - start, usage.ru_maxrss * 1024, child.returncode, line


def best(runs):
    return min(r[0] for r in runs), min(r[1] for r in runs)


def beside_reading(program, spot, text, runs=5):
    """The runs of a plan, and of reading its text alone. A key that no plan has is found when all
    is read, so a plan with one takes as long as its text is read. After one of ten seconds no
    other is made."""
    whole, read = (pathlib.Path(spot, name) for name in ("whole.toml", "read.toml"))
    whole.write_text(text)
    read.write_text("zone = 1\n" + text)
    made = {path: [] for path in (whole, read)}
    for _ in range(runs):
        for path, of in made.items():
            of.append(measured([program, "plan", str(path)]))
        if made[whole][0][0] > 10:
            break
    return made[whole], made[read]


def print_beside(title, text, whole, read):
    (a, m), (b, n) = best(whole), best(read)
    print(f"{title}: {len(text)} octets; status {whole[0][2]}, {whole[0][3]}")
    print(f"  crystal plan           {a:7.3f} s  {m / 1e6:7.1f} MB")
    print(f"  reading its text alone {b:7.3f} s  {n / 1e6:7.1f} MB (status {read[0][2]})")
    print(f"  what comes after it    {a - b:7.3f} s, {(a - b) / b:5.2f} of the reading", flush=True)
    return a, m


def at_the_limits(program, spot):
    for title, text in (("limits", plan()), ("limits, with policies", plan(policies=True))):
        whole, read = beside_reading(program, spot, text)
        a, m = print_beside(title, text, whole, read)
        path = str(pathlib.Path(spot, "whole.toml"))
        b, n = best([measured([sys.executable, "-c", READ, path]) for _ in range(5)])
        ratios = f"{a / b:.3f} and {m / n:.3f} of it, the reading {best(read)[0] / b:.3f}"
        print(f"  tomllib                {b:7.3f} s  {n / 1e6:7.1f} MB: {ratios}", flush=True)


def with_records(program, spot):
    text, count = recorded_plan()
    _, m = print_beside(f"{count} records", text, *beside_reading(program, spot, text))
    without = pathlib.Path(spot, "without.toml")
    without.write_text(text[: text.index("[[record]]")])
    _, o = best([measured([program, "plan", str(without)]) for _ in range(5)])
    each = f"{(m - o) / count:.0f} octets a record"
    print(f"  without its records             {o / 1e6:7.1f} MB: {each}")


def worst(program, spot, devices, prefixes):
    for shape in WORST:
        title, text, wanted = shape(devices, prefixes)
        whole, read = beside_reading(program, spot, text, runs=3)
        if whole[0][2:] != wanted:
            sys.exit(f"{title}: wanted {wanted}, found {whole[0][2:]}")
        (a, _), (b, _) = best(whole), best(read)
        counts = f"{devices:5} devices {prefixes:6} prefixes"
        print(f"{title:26} {counts}  reading {b:7.3f} s  in all {a:7.3f} s", flush=True)


def main(program, devices="4096", prefixes="16384"):
    with tempfile.TemporaryDirectory() as spot:
        at_the_limits(program, spot)
        with_records(program, spot)
        worst(program, spot, int(devices), int(prefixes))


if __name__ == "__main__":
    main(*sys.argv[1:])
