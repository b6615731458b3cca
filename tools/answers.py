"""What the program answers: to `plan`, and to the pulls of scripts, as files of answers have it."""
import collections
import pathlib
import re
import subprocess

CRYSTAL = pathlib.Path(__file__).resolve().parent.parent / "crystal"
KINDS = "work|drain|pull|reload|cut|restore|reset"
ANSWER = re.compile(rf"([1-9]\d*) ({KINDS}) (\S.*)")
WATCH = re.compile(r"watch \d+ steps \d+ changes \d+ (quiet|again .*)")
HEADING = re.compile(r"table (\S+)")
ROW = re.compile(r"(\d+(?:\.\d+){3}/\d+) (own|from \S+) path (-|\d+(?: \d+)*) origin (\w+)")

# A line of a file of answers: what it is (`answer`, `watch`, `table` or `row`), and its words.
Line = collections.namedtuple("Line", "what words")


class Fault(Exception):
    """Why an answer can't be used."""


def certified(plan):
    """The names of the devices that the program certifies as emulated, and the first line of what
    it answers. `plan` is a path. It says the rest on standard error."""
    path = pathlib.Path(plan)
    try:
        ended = subprocess.run(
            [CRYSTAL, "plan", path.name],
            cwd=path.parent,
            stdin=subprocess.DEVNULL,
            stdout=subprocess.PIPE,
            text=True,
        )
    except OSError as error:
        raise Fault(f"{CRYSTAL}: {error.strerror}")
    first, *lines = ended.stdout.splitlines() or [""]
    if ended.returncode != 0 or not first.startswith("certified "):
        raise Fault(first or f"the program ends with status {ended.returncode}")
    names = [line.removeprefix("emulate ") for line in lines if line.startswith("emulate ")]
    return names, first


def read(name, lines):
    """What each of these lines says. Tables stand behind a quiet pull, or alone from the first line
    on, as merge writes them; in a pull each device has one, and in it each prefix one row."""
    devices, prefixes = None, None
    for number, line in enumerate(lines, 1):
        text = line.removesuffix("\n")
        if text == line:
            raise Fault(f"{name} ends in the middle of a line")
        found = None
        if prefixes is not None and (row := ROW.fullmatch(text)):
            if row[1] not in prefixes:
                prefixes.add(row[1])
                found = Line("row", row.groups())
        elif heading := HEADING.fullmatch(text):
            devices = set() if number == 1 else devices
            if devices is not None and heading[1] not in devices:
                devices.add(heading[1])
                prefixes, found = set(), Line("table", heading.groups())
        elif answer := ANSWER.fullmatch(text):
            quiet = answer.groups()[1:] == ("pull", "quiet")
            devices, prefixes = set() if quiet else None, None
            found = Line("answer", answer.groups())
        elif WATCH.fullmatch(text):
            devices, prefixes = None, None
            found = Line("watch", ())
        if not found:
            raise Fault(f"{name}, line {number}: this is no line of an answer: {text}")
        yield found
