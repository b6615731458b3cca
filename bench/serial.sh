#!/usr/bin/env bash
# Runs the proved program's `serial` until all is quiet, on networks of eight shapes:
#
#     bench/serial.sh [--beside PROGRAM] [--only SHAPE] [--program PROGRAM]
#
#     fabric-88, fabric-168, fabric-336, fabric-656     fabrics, all emulated
#     speakers-656         25 devices of a fabric of 656, beside speakers with 19,231 records
#     pair                 two devices, of which one has 16,384 prefixes
#     star                 a hub with 499 devices, each with a prefix of its own, all emulated
#     speakers-1888        21 devices of a fabric of 1,888, beside speakers with 87,407 records
#
# The last three are worst shapes. For each shape the number of events is printed, and of one run
# the CPU seconds (reading the plan and writing the trace with it), the microseconds an event and
# the peak memory: the best of three runs, or of one that takes more than ten seconds. With
# --beside the same is printed of another program that takes the same words, and how many times its
# CPU and its memory the proved program takes. The figures that count are these ratios, since
# machines differ.
#
# The bench ends with a fault where the program isn't built, where it doesn't end quiet, where the
# two programs don't write the same trace and the same answers, or where the tables aren't those of
# acceptance/fixpoint.py, which knows no records: it lets all devices of the network decide (of the
# last shape that isn't computed, since it would take minutes).
set -eu
root=$(cd -- "$(dirname -- "$0")/.." && pwd)
exec python3 "$root/bench/serial.py" "$@"
