#!/usr/bin/env bash
# Times the proved program's `plan`, beside the reading of the same text alone: what is left is
# growth, islands, the certificate and the check of records.
#
#     bench/plan.sh [DEVICES PREFIXES]
#
# Three plans are of fabrics: one at the limits (4,096 devices, 16,384 links, emulated devices that
# grow from 1,012 to 1,024), the same with two policies on every device, and one of 656 devices with
# 19,231 records. For each the time and the peak memory are printed, the best of five runs, beside
# Python's tomllib on the first two, and the memory that a record takes. The figures that count are the ratios, since machines differ.
#
# Three more are the worst shapes for the check of records, with this many devices and prefixes
# (4,096 and 16,384 where none are given): a chain with two AS numbers in turn, a chain of distinct
# numbers, and a star of one number round a hub. plan.py says what makes each bad. For each the
# seconds of reading and of all are printed, the best of three runs, or of one that takes ten
# seconds; where the answer isn't the one that the shape must get, the bench ends with a fault. They
# are worst from 300 devices on.
set -eu
root=$(cd -- "$(dirname -- "$0")/.." && pwd)
"$root/build"
exec python3 "$root/bench/plan.py" "$root/crates/crystal/out/crystal" "$@"
