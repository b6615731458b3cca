#!/usr/bin/env python3
"""Says where a text is no TOML: of the first of these files in which a reader stops, the place.

    syntax.py FILE..

It says nothing where no reader stops, or where a file can't be read again, as a pipe. The reader is
that of python3. It may know TOML 1.0 alone, to which a line break in an inline table is a fault.
"""
import pathlib
import re
import sys

try:
    import tomllib
except ImportError:
    sys.exit(0)

LONGEST = 1 << 24  # octets; the program reads no longer text


def place(octets):
    """The line and the column, from 1, of the last of these octets, and the column of the next."""
    front = octets.decode(errors="replace").replace("\r\n", "\n")
    return front.count("\n") + 1, len(front) - front.rfind("\n")


def stop(octets):
    """The line, the column and the reason where a reader stops, or None."""
    octets = octets.removeprefix(b"\xef\xbb\xbf")
    try:
        tomllib.loads(octets.decode())
    except UnicodeDecodeError as error:
        return *place(octets[: error.start]), "this isn't UTF-8"
    except tomllib.TOMLDecodeError as error:
        reason, _, where = str(error).partition(" (at ")
        found = re.fullmatch(r"line (\d+), column (\d+)\)", where)
        return *(found.groups() if found else place(octets)), reason
    except RecursionError:
        pass  # nested too deep for this reader, which is no fault of the text
    return None


def main(names):
    for name in names:
        path = pathlib.Path(name)
        if not path.is_file() or path.stat().st_size > LONGEST:
            continue
        found = stop(path.read_bytes())
        if found:
            line, column, reason = found
            where = f"line {line}, column {column}"
            print(f"crystal: {name}: a reader of TOML stops at {where}: {reason}")
            return


sys.stdout.reconfigure(errors="surrogateescape")  # names of files may be any octets
main(sys.argv[1:])
