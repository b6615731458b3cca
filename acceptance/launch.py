#!/usr/bin/env python3
"""Tries the scripts `crystal` and `build` in a folder of their own, with a program and an `rt` that
only play theirs. Ends with status 1 and what was wrong where something was.

    acceptance/launch.py
"""
import os
import pathlib
import pty
import re
import shutil
import subprocess
import sys
import tempfile

ROOT = pathlib.Path(__file__).resolve().parent.parent
TOOLS = "awk bash cat chmod date dirname env find mktemp readlink rm sed sh tail touch tr".split()
TOLD = {"crystal: 1 of 3 crates, 0 min", "crystal: 2 of 3 crates, 0 min"}
COMMANDS = "plan serial replay save make sample live".split()
STATUSES = [1, 2, 3, 4, 5, 6, 7, 9]

# A program that prints its words and ends with the status that its first word names, if it does.
PROGRAM = """#!/bin/sh
printf '%s %s' "$0" "$*"
echo
printf 'no line end'
case $1 in [0-9]) exit "$1" ;; esac
exit "${PLAYED-0}"
"""

# An rt that counts its calls and builds the program, or fails where it is told to, and that edits a
# source meanwhile where it is told to. It prints what the real one might.
RT = """#!/bin/sh
echo call >>"$HOME/calls"
echo "usage: a line that must not be seen"
[ -e "$HOME/fails" ] && exit 1
if [ -e "$HOME/slow" ]; then
  for name in cn_a cn_b; do
    echo "fn $name::first: proved" >&2
    echo "crate $name: modules loaded=1 checked=1"
    sleep 0.5
  done
fi
mkdir -p out
cp "$HOME/program" out/crystal
sleep 0.1
[ -e "$HOME/edits" ] && echo edited >>src/main.rt
sleep 0.1
touch out/crystal
exit 0
"""

# A sleep to which a second and a minute are a tenth of a second.
SLEEP = """#!/bin/sh
case $1 in 1 | 60) exec {0} 0.1 ;; esac
exec {0} "$1"
"""


class House:
    """A folder with the scripts, one source, and tools with or without rt and python3."""

    def __init__(self, spot):
        self.root = spot / "house"
        self.home = spot / "home"
        self.tools = spot / "tools"
        self.crate = self.root / "crates/crystal"
        for folder in (self.crate / "src", self.home, self.tools):
            folder.mkdir(parents=True)
        for name in ("crystal", "build", "syntax.py"):
            shutil.copy(ROOT / name, self.root)
        shutil.copytree(ROOT / "docs/man", self.root / "docs/man")
        crates = "# A comment.\ncn_c:\ncn_a:\ncrystal: cn_b toml\ncn_b: cn_a\n"
        (self.root / "crates.txt").write_text(crates)
        (self.crate / "src/main.rt").write_text("source\n")
        for name in [*TOOLS, "mkdir", "cp"]:
            (self.tools / name).symlink_to(shutil.which(name))
        self.write(self.home / "program", PROGRAM)
        self.write(self.tools / "sleep", SLEEP.format(shutil.which("sleep")))

    def write(self, path, text):
        path.parent.mkdir(parents=True, exist_ok=True)
        path.write_text(text)
        path.chmod(0o755)

    def with_python(self):
        self.write(self.tools / "python3", f'#!/bin/sh\nexec {sys.executable} "$@"\n')

    def with_rt(self):
        self.write(self.tools / "rt", RT)

    def with_program(self, age=0):
        """A program that is there, older by so many seconds than it would be."""
        program = self.crate / "out/crystal"
        self.write(program, PROGRAM)
        now = program.stat().st_mtime
        os.utime(program, (now - age, now - age))

    def program(self):
        path = self.crate / "out/crystal"
        return path.read_text() if path.exists() else None

    def calls(self):
        path = self.home / "calls"
        return len(path.read_text().splitlines()) if path.exists() else 0

    def run(self, *words, stderr=subprocess.PIPE, **played):
        surroundings = {"PATH": str(self.tools), "HOME": str(self.home), **played}
        ended = subprocess.run(
            [self.root / "crystal", *words],
            cwd=self.home,
            env=surroundings,
            stdin=subprocess.DEVNULL,
            stdout=subprocess.PIPE,
            stderr=stderr,
            text=True,
            timeout=60,
        )
        return ended.returncode, ended.stdout, ended.stderr

    def run_at_terminal(self, *words):
        """A run whose standard error is a terminal, and what stands there in the end."""
        ours, theirs = pty.openpty()
        try:
            status, stdout, _ = self.run(*words, stderr=theirs)
            # The line ends of a terminal are CR LF.
            return status, stdout, os.read(ours, 1 << 16).decode().replace("\r\n", "\n")
        finally:
            os.close(ours)
            os.close(theirs)

    def prints(self, *words):
        return f"{self.crate}/out/crystal {' '.join(words)}\nno line end"


def wants(found, wanted, what):
    if found != wanted:
        raise AssertionError(f"{what}: {found!r}, wanted {wanted!r}")


def nothing_can_be_built(house):
    """Without a program and without rt the status is 125, and standard output stays empty."""
    status, stdout, stderr = house.run("plan", "q.toml")
    wants((status, stdout, "rt" in stderr), (125, "", True), "no rt")


def the_program_stays_without_rt(house):
    """A program that is older than its sources stays where there is no rt."""
    house.with_program(age=100)
    wants(house.run("plan", "q.toml")[:2], (125, ""), "no rt")
    wants(house.program(), PROGRAM, "the program")


def the_program_stays_where_the_build_fails(house):
    """A program that is older than its sources stays where the new one can't be proved."""
    house.with_program(age=100)
    house.with_rt()
    (house.home / "fails").touch()
    wants(house.run("plan", "q.toml")[:2], (125, ""), "a build that fails")
    wants((house.program(), house.calls()), (PROGRAM, 1), "the program and the builds")


def the_first_build_prints_nothing(house):
    """What is said of the build goes to standard error, and no line of rt's is among it."""
    house.with_rt()
    status, stdout, stderr = house.run("plan", "q.toml")
    wants((status, stdout), (0, house.prints("plan", "q.toml")), "the first call")
    wants("usage" in stderr, False, "a line of rt's on standard error")
    wants(house.run("plan", "q.toml"), (0, stdout, ""), "the second call")
    wants(house.calls(), 1, "builds")


def an_edit_during_the_build_counts(house):
    """A source that is edited while the program is built is newer than the program."""
    house.with_rt()
    (house.home / "edits").touch()
    house.run("plan", "q.toml")
    (house.home / "edits").unlink()
    house.run("plan", "q.toml")
    house.run("plan", "q.toml")
    wants(house.calls(), 2, "builds")


def each_status_is_said(house):
    """Standard output and the status are the program's; a status has one line of its own."""
    house.with_program()
    wants(house.run("0", "a b"), (0, house.prints("0", "a b"), ""), "status 0")
    said = set()
    for number in STATUSES:
        status, stdout, stderr = house.run(str(number))
        wants((status, stdout), (number, house.prints(str(number))), "status and output")
        front, line = f"crystal: status {number}: ", stderr.removesuffix("\n")
        wants((line[: len(front)], line.count("\n")), (front, 0), "standard error")
        said.add(line.removeprefix(front))
    wants(len(said), len(STATUSES), "meanings that are said")


def places(house, *words, played=6):
    """What standard error says behind the line of status 6, or of another."""
    status, stdout, stderr = house.run(*words, PLAYED=str(played))
    wants((status, stdout), (played, house.prints(*words)), "status and output")
    front, *rest = stderr.splitlines() or [""]
    wants(front.startswith(f"crystal: status {played}: "), True, f"a line of status {played}")
    return [line.partition(" stops at ")[0::2] for line in rest]


def a_syntax_error_has_a_place(house):
    """The first text that is no TOML is named, with a line and a column, and only at 6 and 9."""
    house.with_program()
    house.with_python()
    right, wrong = house.home / "right.toml", house.home / "wrong.toml"
    right.write_text("version = 1\n")
    wrong.write_text('version = 1\nmust = ["t1" "t2"]\n')
    os.mkfifo(house.home / "pipe")
    told = [("crystal: wrong.toml: a reader of TOML", "line 2, column 14: Unclosed array")]
    wants(places(house, "plan", "wrong.toml"), told, "a plan")
    words = ["serial", "right.toml", "wrong.toml", "t.txt"]
    wants(places(house, *words, played=9), told, "a script")
    (house.home / "marked.toml").write_bytes(b"\xef\xbb\xbfversion = 1\r\n")
    for name in ("right.toml", "marked.toml", "absent.toml", ".", "pipe"):
        wants(places(house, "plan", name), [], name)
    wants(places(house, "save", "wrong.toml"), [], "another command")
    wants(house.run("plan", "wrong.toml", PLAYED="1")[2].count("\n"), 1, "lines at status 1")
    wrong.write_bytes(b"\xef\xbb\xbfversion = 1\r\nname = '\xff'\r\n")
    told = [("crystal: wrong.toml: a reader of TOML", "line 2, column 9: this isn't UTF-8")]
    wants(places(house, "plan", "wrong.toml"), told, "octets that are no text")


def without_python_no_place_is_said(house):
    """Where there is no python3, the line of status 6 stands alone."""
    house.with_program()
    (house.home / "wrong.toml").write_text("version =\n")
    wants(places(house, "plan", "wrong.toml"), [], "no python3")


def a_build_that_fails_shows_what_rt_said(house):
    """The last that rt said is on standard error, and all of it is kept."""
    house.with_rt()
    (house.home / "fails").touch()
    status, stdout, stderr = house.run("plan", "q.toml")
    kept = (house.crate / "out/build.log").read_text()
    wants((status, stdout), (125, ""), "a build that fails")
    wants(kept, "usage: a line that must not be seen\n", "what is kept")
    wants(kept in stderr and "build.log" in stderr, True, "rt's words on standard error")


def the_build_tells_how_far_it_is(house):
    """Where standard error is no terminal, a line a minute, of the crates below the program."""
    house.with_rt()
    (house.home / "slow").touch()
    status, stdout, stderr = house.run("plan", "q.toml")
    wants((status, stdout), (0, house.prints("plan", "q.toml")), "status and output")
    first, *lines = stderr.splitlines()
    wants(first.startswith("crystal: proving"), True, "the first line")
    odd = [it for it in lines if not re.fullmatch(r"crystal: [012] of 3 crates, 0 min", it)]
    wants((odd, lines == sorted(lines)), ([], True), "lines of progress")
    wants(sorted(TOLD - {*lines}), [], "counts that are missing")


def a_terminal_shows_it_in_one_place(house):
    """Where standard error is a terminal, the line is written over, and gone in the end."""
    house.with_rt()
    (house.home / "slow").touch()
    status, stdout, stderr = house.run_at_terminal("plan", "q.toml")
    wants((status, stdout), (0, house.prints("plan", "q.toml")), "status and output")
    first, *drawn = stderr.split("\r\x1b[K")
    wants((first.count("\n"), "\n" in "".join(drawn)), (1, False), "line ends")
    wants(sorted(TOLD - {*drawn}), [], "counts that are missing")
    wants(drawn[-1], "", "what stands there in the end")


def help_and_version_build_nothing(house):
    """Pages and the version come without a program and without rt, also where there is no man."""
    for words in [["--help"], ["help"], *(["help", name] for name in COMMANDS)]:
        status, stdout, stderr = house.run(*words)
        name = "-".join(["CRYSTAL", *words[1:]]).upper()
        wants((status, stdout.splitlines()[0]), (0, name), f"the page of {words}")
        wants("man-db" in stderr, True, "what is missing")
        wants([it for it in stdout.splitlines() if it.startswith(".")], [], "macros in the text")
    house.write(house.tools / "man", "#!/bin/sh\nprintf '%s ' \"$@\"\n")
    page = f"-l {house.root}/docs/man/crystal-plan.1 "
    wants(house.run("help", "plan"), (0, page, ""), "a page by man")
    status, stdout, stderr = house.run("--version")
    wants((status, stderr), (0, ""), "the version")
    wants(stdout.splitlines()[0].startswith("crystal"), True, "the first line")
    wants(stdout.splitlines()[-1], "program: not built here yet", "the last line")
    house.with_program()
    wants("program: built 2" in house.run("--version")[1], True, "a program that is there")


def other_words_are_the_programs(house):
    """Words that only look like help go to the program."""
    house.with_program()
    for words in (["help", "walk"], ["help", "../man/crystal"], ["--help", "plan"], ["-h"], []):
        wants(house.run(*words)[:2], (0, house.prints(*words)), f"the words {words}")
    wants(house.run("--version", "")[:2], (0, house.prints("--version", "")), "an empty word")


def main():
    trials = [
        nothing_can_be_built,
        the_program_stays_without_rt,
        the_program_stays_where_the_build_fails,
        the_first_build_prints_nothing,
        an_edit_during_the_build_counts,
        each_status_is_said,
        a_syntax_error_has_a_place,
        without_python_no_place_is_said,
        a_build_that_fails_shows_what_rt_said,
        the_build_tells_how_far_it_is,
        a_terminal_shows_it_in_one_place,
        help_and_version_build_nothing,
        other_words_are_the_programs,
    ]
    failed = False
    for trial in trials:
        with tempfile.TemporaryDirectory() as spot:
            try:
                trial(House(pathlib.Path(spot)))
            except (AssertionError, subprocess.TimeoutExpired) as error:
                print(f"{trial.__name__}: {error}")
                failed = True
    return failed


sys.exit(main())
