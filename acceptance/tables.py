"""The cases that the tables beside this file hold.

A table is a TOML file with an array `case`. Its other keys stand for each of its cases that hasn't
the key itself. A case has

- `name`, which no other case of all tables has, and `why`, one sentence that says what it shows;
- `words`, those after the program's name;
- `files`: the files that are there before, by their names. A value is
  - a text, or
  - `{ plan = NAME }`, `{ script = NAME }` or `{ trace = NAME }`: the file of this name in `plans/`,
    `scripts/` or `traces/`, or
  - `{ made = NAME, count = N }`: what `made.py` makes, or
  - `{ octets = [N, ..] }`: these octets;
  and with `line_ends_within = N` or `line_ends_behind = N` in the braces so many line ends stand
  behind its first line or behind its last that it has N octets in all;
- `edits` of its one file that is taken from `plans/`, one after another. Each is one of
  - `{ replace = LINES, by = LINES }`,
  - `{ delete = LINES }`,
  - `{ add = LINES, after = LINES }`, or at the end `{ add = LINES }`;
  LINES are whole lines. Those that are looked for must stand there exactly once;
- `status` and `stdout`, which has a value as a file has it. To standard error nothing may go;
- `stdout_to`: a file that standard output goes to. Nothing then stands in `stdout`;
- `leaves`: the files that are there afterwards and are new or no longer as they were, with values
  as those of `files`, or with `{ begins = TEXT, ends = TEXT }`, where only that is known. All other
  files must be as they were, and nothing else may be there;
- `needs`: a file without which the case is skipped.
"""
import dataclasses
import pathlib
import tomllib

import made

HERE = pathlib.Path(__file__).resolve().parent
BASES = {"plan": "plans/{}.toml", "script": "scripts/{}.toml", "trace": "traces/{}.txt"}
WANTED = {"name", "why", "words", "status", "stdout"}
MAY_BE = {"files", "edits", "stdout_to", "leaves", "needs"}


class TableError(Exception):
    """Why a case has no meaning."""


@dataclasses.dataclass(frozen=True)
class Partly:
    """A file of which only the beginning and the end are known."""

    begins: bytes
    ends: bytes


@dataclasses.dataclass
class Case:
    """A run of the program, and what it must come to."""

    name: str
    words: list
    status: int
    stdout: bytes
    files: dict
    leaves: dict  # all that must be there afterwards, as octets or as Partly
    stdout_to: str | None = None
    needs: str | None = None


def lines_of(text):
    """The lines of this text, whether or not the last one is ended."""
    return text.removesuffix("\n").split("\n")


def place(lines, wanted):
    """Where the wanted lines stand, which must be exactly once."""
    starts = range(len(lines) - len(wanted) + 1)
    found = [n for n in starts if lines[n : n + len(wanted)] == wanted]
    if len(found) != 1:
        raise TableError(f"{len(found)} times there, wanted once: {' | '.join(wanted)}")
    return found[0]


def edited(text, edit):
    """The text after one edit."""
    lines, old, new = lines_of(text), [], []
    match dict(edit), len(edit):
        case {"replace": out, "by": into}, 2:
            old, new = lines_of(out), lines_of(into)
            at = place(lines, old)
        case {"delete": out}, 1:
            old = lines_of(out)
            at = place(lines, old)
        case {"add": into, "after": front}, 2:
            new = lines_of(into)
            at = place(lines, lines_of(front)) + len(lines_of(front))
        case {"add": into}, 1:
            new, at = lines_of(into), len(lines)
        case _:
            raise TableError(f"no edit: {edit}")
    if old == new:
        raise TableError(f"changes nothing: {edit}")
    return "".join(line + "\n" for line in lines[:at] + new + lines[at + len(old) :])


def line_ends(text, octets):
    """So many line ends that this text has so many octets with them, or none."""
    if octets is None:
        return b""
    if octets < len(text):
        raise TableError(f"has {len(text)} octets, more than {octets}")
    return b"\n" * (octets - len(text))


def base_of(value, used):
    """The text that is taken from a file, which is put into `used`, or made."""
    match list(value.items()):
        case [(kind, name)] if kind in BASES:
            path = HERE / BASES[kind].format(name)
            if not path.is_file():
                raise TableError(f"there is no {kind} {name}")
            used.add(path)
            return path.read_bytes().decode()
        case [("made", name), ("count", count)] if name in made.MAKERS:
            return made.MAKERS[name](count)
    raise TableError(f"no text: {value}")


def text_of(value, used, edits=()):
    """The octets that a value stands for."""
    if isinstance(value, str):
        return value.encode()
    if value.keys() == {"octets"}:
        return bytes(value["octets"])
    value = dict(value)
    within, behind = value.pop("line_ends_within", None), value.pop("line_ends_behind", None)
    text = base_of(value, used)
    for edit in edits:
        text = edited(text, edit)
    text = text.encode()
    first = text.find(b"\n") + 1
    text = text[:first] + line_ends(text, within) + text[first:]
    return text + line_ends(text, behind)


def left_of(value, used):
    """What a file must be afterwards."""
    if isinstance(value, dict) and value.keys() == {"begins", "ends"}:
        return Partly(value["begins"].encode(), value["ends"].encode())
    return text_of(value, used)


def files_of(row, used):
    """The files of a row, with its edits made."""
    values, edits = row.get("files", {}), row.get("edits", [])
    plans = [name for name, value in values.items() if isinstance(value, dict) and "plan" in value]
    if edits and len(plans) != 1:
        raise TableError("has edits, and not one plan that they are of")
    return {
        name: text_of(value, used, edits if name in plans else ())
        for name, value in values.items()
    }


def case_of(row, used):
    """The case that a row stands for."""
    missing, unknown = WANTED - row.keys(), row.keys() - WANTED - MAY_BE
    if missing or unknown:
        raise TableError(f"missing keys {sorted(missing)}, unknown keys {sorted(unknown)}")
    files = files_of(row, used)
    leaves = {name: left_of(value, used) for name, value in row.get("leaves", {}).items()}
    same = [name for name in leaves if files.get(name) == leaves[name]]
    if same:
        raise TableError(f"leaves as they were need not be said: {same}")
    stdout = text_of(row["stdout"], used)
    into, needs = row.get("stdout_to"), row.get("needs")
    if into and stdout:
        raise TableError("has a standard output that goes elsewhere")
    return Case(
        row["name"], row["words"], row["status"], stdout, files, files | leaves, into, needs
    )


def read():
    """The cases of all tables, and what is wrong: a name and a reason each."""
    cases, faults, used = [], [], set()
    for table in sorted(HERE.glob("*.toml")):
        try:
            head = tomllib.loads(table.read_text())
        except tomllib.TOMLDecodeError as error:
            faults.append((table.name, str(error)))
            continue
        for number, row in enumerate(head.pop("case", []), 1):
            row = head | row
            try:
                cases.append(case_of(row, used))
            except TableError as error:
                faults.append((row.get("name", f"{table.name}, case {number}"), str(error)))
    names = [case.name for case in cases]
    for name in sorted({name for name in names if names.count(name) > 1}):
        faults.append((name, "there are several cases of this name"))
    bases = {path for base in BASES.values() for path in HERE.glob(base.format("*"))}
    for path in sorted(bases - used):
        faults.append((str(path.relative_to(HERE)), "no case is made of it"))
    return cases, faults
