#!/bin/sh
# codec.sh PROGRAM [YARDSTICK [RUNS]]: times the reading of row events, in memory and one after another.
#
# PROGRAM is the built `cdc_bench`, YARDSTICK a folder with the built `yard` (no word, or an empty one: no comparison),
# RUNS how often each is run (5 if left out). It needs python3, and says which of them is missing (status 2). The least
# time counts, in seconds of the processor, since other programs may run beside it. For row events of 100 and of 1,000
# bytes a line gives the events and bytes that were read in a second and, with a yardstick, the same of `yard parse`
# over the same events in files, and how many times longer the program takes. From each time that of a run over one log
# (64 MiB) is taken off, so that making the log and starting the program count for nothing.
set -eu
. "$(dirname "$0")/needs.sh"

if [ $# -lt 1 ]; then
    echo "usage: codec.sh PROGRAM [YARDSTICK [RUNS]]" >&2
    exit 2
fi
need "$1" "the built program cdc_bench"
if [ -n "${2:-}" ]; then
    need "$2/yard" "the built yardstick"
fi
room=$(mktemp -d)
trap 'rm -rf "$room"' EXIT
python3 - "$1" "${2:-}" "${3:-5}" "$room" <<'PYTHON'
import os
import struct
import subprocess
import sys

program, yardstick, runs, room = sys.argv[1], sys.argv[2], int(sys.argv[3]), sys.argv[4]
LOG = 1 << 26


def seconds(words):
    """The least processor seconds of some runs, and what the last one printed."""
    best = None
    for _ in range(runs):
        process = subprocess.Popen(words, stdout=subprocess.PIPE, text=True)
        printed = process.stdout.read()
        _, answer, used = os.wait4(process.pid, 0)
        process.returncode = os.waitstatus_to_exitcode(answer)
        if process.returncode:
            sys.exit(f"{' '.join(words[:3])}: status {process.returncode}")
        took = used.ru_utime + used.ru_stime
        best = took if best is None else min(best, took)
    return best, printed


def read(size, count):
    """The seconds of the program over so many events."""
    took, printed = seconds([program, "read", "row", str(size), str(count)])
    if printed != f"read {count} events {count * size} bytes\n":
        sys.exit(f"{count} events of {size} bytes: {printed!r}")
    return took


def parse(size, logs):
    """The seconds of the yardstick over so many files of a log each."""
    path = os.path.join(room, "log")
    event = struct.pack("<IBIIIH", 0, 30, 1, size, 0, 0) + bytes(size - 19)
    with open(path, "wb") as sink:
        sink.write(b"\xfebin" + event * (LOG // size))
    took = [seconds([os.path.join(yardstick, "yard"), "parse", ",".join([path] * count)])[0] for count in (1, logs + 1)]
    return took[1] - took[0]


for size, least in ((100, 20_000_000), (1_000, 5_000_000)):
    logs = -(-least // (LOG // size))
    count = logs * (LOG // size)
    took = read(size, count + LOG // size) - read(size, LOG // size)
    line = (f"row events of {size} bytes: {count} in {1000 * took:.0f} ms, {count / took / 1e6:.1f} million/s, "
            f"{count * size / took / 1e6:.0f} MB/s")
    if yardstick:
        hand = parse(size, logs)
        line += f"; yardstick {1000 * hand:.0f} ms, {count * size / hand / 1e6:.0f} MB/s, ratio {took / hand:.2f}"
    print(line, flush=True)
PYTHON
