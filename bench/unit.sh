#!/bin/sh
# unit.sh PROGRAM [RUNS]: times the making of units, one behind another.
#
# PROGRAM is the built `cdc_bench`, RUNS how often each is run (5 if left out). It needs python3, and says which of the
# two is missing (status 2). The least time counts, in seconds of the processor, since other programs may run beside
# it. For transactions of two branches, with a table map and ten row events of 30, 100 and 1,000 bytes each, a line
# gives the units, the events and the bytes that were made in a second, and how many times longer that takes than to
# copy as many bytes in memory, 64 MiB at a time. (The rows share one body, which stays near the processor; the copy
# reads and writes memory anew.) From each time that of a run over one unit is taken off, so that making the
# transaction and starting the program count for nothing.
set -eu
. "$(dirname "$0")/needs.sh"

if [ $# -lt 1 ]; then
    echo "usage: unit.sh PROGRAM [RUNS]" >&2
    exit 2
fi
need "$1" "the built program cdc_bench"
python3 - "$1" "${2:-5}" <<'PYTHON'
import os
import subprocess
import sys
import time

program, runs = sys.argv[1], int(sys.argv[2])
BLOCK = 1 << 26
HEAD, ROTATE, ROTATION = 123, 40, 1 << 30
EVENTS = 25


def made(unit, count):
    """How many bytes so many units have, whose prints have `unit` bytes, in files that are closed at 2^30 bytes."""
    total = length = 0
    for _ in range(count):
        if not length:
            total, length = total + HEAD, HEAD
        total, length = total + unit, length + unit
        if length >= ROTATION:
            total, length = total + ROTATE, 0
    return total


def seconds(size, count):
    """The least processor seconds of some runs that make so many units."""
    best = None
    want = f"made {count} units {made(2 * (39 + 10 * size) + 118, count)} bytes\n"
    for _ in range(runs):
        process = subprocess.Popen([program, "unit", "row", str(size), str(count)], stdout=subprocess.PIPE, text=True)
        printed = process.stdout.read()
        _, answer, used = os.wait4(process.pid, 0)
        process.returncode = os.waitstatus_to_exitcode(answer)
        if process.returncode or printed != want:
            sys.exit(f"{count} units of {size}: status {process.returncode}, {printed!r}, not {want!r}")
        took = used.ru_utime + used.ru_stime
        best = took if best is None else min(best, took)
    return best


def copy():
    """The least processor seconds to copy a byte, of some copies of a block."""
    source, target = memoryview(bytearray(os.urandom(BLOCK))), memoryview(bytearray(BLOCK))
    best = None
    for _ in range(runs + 5):
        before = time.process_time()
        target[:] = source
        took = time.process_time() - before
        best = took if best is None else min(best, took)
    return best / BLOCK


each = copy()
for size, count in ((30, 1_000_000), (100, 1_000_000), (1_000, 500_000)):
    took = seconds(size, count) - seconds(size, 1)
    total = made(2 * (39 + 10 * size) + 118, count)
    print(f"row events of {size} bytes: {count} units in {1000 * took:.0f} ms, {count / took / 1e3:.0f} thousand/s, "
          f"{count * EVENTS / took / 1e6:.1f} million events/s, {total / took / 1e6:.0f} MB/s; "
          f"copying {1 / each / 1e6:.0f} MB/s, ratio {took / total / each:.2f}", flush=True)
PYTHON
