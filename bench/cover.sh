#!/usr/bin/env bash
# Covers two fabrics by parts, runs the parts on the proved program, and merges their tables:
#
#     bench/cover.sh [--jobs N] [--keep FOLDER] [--only SHAPE] [--program PROGRAM]
#
#     fabric-336     8 pods; compared with the emulation of all its devices
#     fabric-2024    42 pods, about twice as many devices as one emulation may have
#
# A part is a pod and the spines. For each shape it prints what `cover` takes, which has each part
# certified, what the parts take, N of them side by side (2 where none is given), and what `merge`
# takes: seconds on the clock, CPU seconds and peak memory. The figures that count are the ratios,
# since machines differ. With --keep all files stay in FOLDER.
#
# The bench ends with a fault where a part isn't certified or isn't quiet, where two parts disagree,
# and where the merged tables aren't those of the whole network: of the first shape those that the
# program shows where it emulates all devices, and of both the stable state. That is tried by one
# step of acceptance/fixpoint.py, in which all devices decide once more: nothing may change. A
# network has one stable state, so that step says what the whole computation would, which takes
# many. The greater fabric takes about ten minutes.
set -eu
root=$(cd -- "$(dirname -- "$0")/.." && pwd)
exec python3 "$root/bench/cover.py" "$@"
