#!/usr/bin/env python3
"""Tries draw, diff-tables, the pages of docs/man and the completion of words, on the examples and
what they print. What needs a tool that is missing is skipped with a line. Ends with status 1 and
what was wrong where something was.

    acceptance/tools.py
"""
import pathlib
import shutil
import subprocess
import sys
import tempfile

ROOT = pathlib.Path(__file__).resolve().parent.parent
EXAMPLES = ROOT / "examples"
QUIET = EXAMPLES / "scripts/until-quiet.q-emulated.stdout"
COMMANDS = "plan serial replay save make sample live".split()


def run(tool, *words, **how):
    """The status of a tool, and what it wrote to standard output and error."""
    words = [sys.executable, "-B", ROOT / "tools" / tool, *words]
    ended = subprocess.run(words, capture_output=True, text=True, timeout=60, **how)
    return ended.returncode, ended.stdout, ended.stderr


def wants(found, wanted, what):
    if found != wanted:
        raise AssertionError(f"{what}: {found!r}, wanted {wanted!r}")


def drawn(name, answer=None, *words):
    """The lines that Graphviz reads of an example."""
    with tempfile.TemporaryDirectory() as spot:
        path = pathlib.Path(spot, "answer")
        path.write_text(answer or (EXAMPLES / f"{name}.stdout").read_text())
        words = [*words, "--dot", "--answer", path, EXAMPLES / f"{name}.toml"]
        status, stdout, stderr = run("draw", *words)
    return (stdout if status == 0 else stderr).splitlines() if status < 2 else [status]


def of(lines, front):
    """The one line that begins so."""
    found = [line for line in lines if line.strip().startswith(front)]
    wants(len(found), 1, f"lines that begin {front}")
    return found[0]


def islands_speakers_and_facing_links_are_drawn():
    lines = drawn("q-recorded")
    wants("island t2" in of(lines, "subgraph cluster_"), True, "the island")
    wants("t2, speaker" in of(lines, '"t2" ['), True, "the speaker")
    wants("l2, emulated" in of(lines, '"l2" ['), True, "an emulated device")
    facing = of(lines, '"l1" -- "t2"')
    wants("#d97a00" in facing, True, "a link that faces")
    wants("#d97a00" in of(lines, '"l1" -- "t1"'), False, "a link that doesn't")
    wants("certified emulated 4 islands 1" in "".join(lines), True, "the caption")


def a_refusal_is_marked():
    for name, named in (
        ("q-refused-emulated-side", {"t1", "l1"}),
        ("q-refused-record", {"t2"}),
    ):
        lines = drawn(name)
        found = {it for it in ("t1", "t2", "l1", "l2", "s1") if "c0002a" in of(lines, f'"{it}" [')}
        wants(found, named, f"the devices that are marked in {name}")
        words = (EXAMPLES / f"{name}.stdout").read_text().split()
        wants([it for it in words if it not in "".join(lines)], [], "words not in the caption")


def the_program_is_asked():
    """Without an answer, the script `crystal` beside the tools is asked for it."""
    with tempfile.TemporaryDirectory() as spot:
        (pathlib.Path(spot) / "tools").mkdir()
        draw = shutil.copy(ROOT / "tools/draw", pathlib.Path(spot, "tools"))
        played = pathlib.Path(spot, "crystal")
        answer = EXAMPLES / "q-recorded.stdout"
        played.write_text(f'#!/bin/sh\n[ "$*" = "plan q.toml" ] && cat "{answer}"\n')
        played.chmod(0o755)
        shutil.copy(EXAMPLES / "q-recorded.toml", pathlib.Path(spot, "q.toml"))
        words = [sys.executable, "-B", draw, "--dot", "q.toml"]
        ended = subprocess.run(words, cwd=spot, capture_output=True, text=True)
    wants((ended.returncode, ended.stdout.splitlines()), (0, drawn("q-recorded")), "the picture")


def what_is_no_boundary_is_not_drawn():
    for answer in ("bad net: name t1 twice\n", "certified emulated 2 islands 0\nemulate t1\n"):
        wants(drawn("q-emulated", answer)[0].startswith("draw: "), True, answer)
    other = "certified emulated 1 islands 0\nemulate t9\n"
    wants(drawn("q-emulated", other)[0], "draw: the answer isn't of this plan, which has no "
          "device t9", "another plan's answer")


def graphviz_draws_it():
    words = ["--answer", EXAMPLES / "q-recorded.stdout", EXAMPLES / "q-recorded.toml"]
    told = run("draw", *words, env={"PATH": ""})
    wants((told[0], told[1], "graphviz" in told[2]), (1, "", True), "without dot")
    if not shutil.which("dot"):
        print("tools.py: the picture is skipped, since there is no dot")
        return
    status, stdout, stderr = run("draw", *words)
    wants((status, "<svg" in stdout, stderr), (0, True, ""), "the picture")


def compared(old, new):
    """What diff-tables says of two texts."""
    with tempfile.TemporaryDirectory() as spot:
        for name, text in (("a", old), ("b", new)):
            pathlib.Path(spot, name).write_text(text)
        return run("diff-tables", "a", "b", cwd=spot)


def changes_of_tables_are_told():
    text = QUIET.read_text()
    wants(compared(text, text), (0, "", ""), "equal pulls")
    old, _, rest = text.partition("table t1\n")
    new = old + "table t1\n" + rest.replace(
        "10.1.2.0/24 from l1 path 65201 65102", "10.1.2.0/24 from l2 path 65201 7 65102", 1
    )
    status, stdout, stderr = compared(text, new)
    line = "t1 10.1.2.0/24: moved from l1 to l2, path longer: 65201 65102 to 65201 7 65102"
    wants((status, stdout.splitlines()[0], stderr), (1, line, ""), "a route that moved")
    wants(stdout.splitlines()[-1], "1 of 5 devices changed", "the last line")
    row = "10.1.1.0/24 own path - origin igp\n"
    for pair, word in (((text, text.replace(row, "", 1)), "gone, was own path - origin igp"),
                       ((text.replace(row, "", 1), text), "new, own path - origin igp")):
        status, stdout, _ = compared(*pair)
        wants((status, stdout.splitlines()[0]), (1, f"t1 10.1.1.0/24: {word}"), "a route")


def what_has_no_tables_is_refused():
    status, stdout, stderr = run("diff-tables", f"{QUIET}:2", QUIET)
    wants((status, stdout, "pull 2" in stderr), (2, "", True), "a pull answered again")
    for words in ((f"{QUIET}:1", QUIET), ("absent", QUIET), (QUIET,)):
        wants(run("diff-tables", *words)[0], 2, f"status of {words}")
    wants(compared("1 work done\n", QUIET.read_text())[0], 2, "no pull")


def every_command_has_a_page():
    for name in ["crystal", *(f"crystal-{it}" for it in COMMANDS)]:
        text = (ROOT / f"docs/man/{name}.1").read_text()
        parts = [line[4:] for line in text.splitlines() if line.startswith(".SH ")]
        wanted = ["NAME", "SYNOPSIS", "DESCRIPTION", "FILES", "EXIT STATUS", "EXAMPLES", "SEE ALSO"]
        wants(parts, wanted, f"the parts of {name}")


def words_are_completed():
    text = """source "$1/tools/completion/crystal.bash"; shift
        COMP_WORDS=("$@"); COMP_CWORD=$(($# - 1)); _crystal; echo "${COMPREPLY[@]}" """
    trials = (["s"], "serial"), (["help", "sa"], "save sample"), (["plan", "a", ""], "")
    for words, wanted in trials:
        words = ["bash", "-c", text, "bash", ROOT, "crystal", *words]
        ended = subprocess.run(words, capture_output=True, text=True)
        wants((ended.stdout.strip(), ended.stderr), (wanted, ""), f"completion of {words[6:]}")


def main():
    failed = False
    for trial in (
        islands_speakers_and_facing_links_are_drawn,
        a_refusal_is_marked,
        the_program_is_asked,
        what_is_no_boundary_is_not_drawn,
        graphviz_draws_it,
        changes_of_tables_are_told,
        what_has_no_tables_is_refused,
        every_command_has_a_page,
        words_are_completed,
    ):
        try:
            trial()
        except (AssertionError, subprocess.TimeoutExpired) as error:
            print(f"{trial.__name__}: {error}")
            failed = True
    return failed


sys.exit(main())
