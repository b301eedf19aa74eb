#!/bin/sh
# keep.sh PROGRAM [YARDSTICK [RUNS]]: times the cutting of events in place from pieces of 65,536 bytes, and the keeping
# of their rows in runs.
#
# PROGRAM is the built `cdc_bench`, YARDSTICK a folder with the built `yard` (no word, or an empty one: no comparison),
# RUNS how often each is run (5 if left out). It needs python3, and says which of them is missing (status 2). The least
# time counts, in seconds of the processor, since other programs may run beside it. For row events of 30, 100, 300 and
# 1,000 bytes, about 1 GB of each, a line gives the nanoseconds an event, and, with a yardstick, those of `yard parse
# -r 1` over the same events, which reads files by 64 KiB into memory that it keeps, and how many times longer the
# program takes. From each time that of a run over one log is taken off, so that making the log and starting the
# program count for nothing. A last line for each of 100 and of 1,000 bytes gives how many bytes of memory a row takes
# in 50,000 runs of ten rows that are held, beside the same runs dropped.
set -eu
. "$(dirname "$0")/needs.sh"

if [ $# -lt 1 ]; then
    echo "usage: keep.sh PROGRAM [YARDSTICK [RUNS]]" >&2
    exit 2
fi
need "$1" "the built program cdc_bench"
if [ -n "${2:-}" ]; then
    need "$2/yard" "the built yardstick"
fi
room=$(mktemp -d)
trap 'rm -rf "$room"' EXIT
python3 - "$1" "${2:-}" "${3:-5}" "$room" <<'PYTHON'
import os
import struct
import subprocess
import sys

program, yardstick, runs, room = sys.argv[1], sys.argv[2], int(sys.argv[3]), sys.argv[4]
LOG = 1 << 26
LOGS = 15
HELD_ROWS = 500_000


def measured(words, wanted=None):
    """The least processor seconds of some runs, and the least memory of any, in bytes."""
    best = least = None
    for _ in range(runs):
        process = subprocess.Popen(words, stdout=subprocess.PIPE, text=True)
        printed = process.stdout.read()
        _, answer, used = os.wait4(process.pid, 0)
        process.returncode = os.waitstatus_to_exitcode(answer)
        if process.returncode or wanted not in (None, printed):
            sys.exit(f"{' '.join(words[:3])}: status {process.returncode}, {printed!r}")
        took = used.ru_utime + used.ru_stime
        best = took if best is None else min(best, took)
        least = used.ru_maxrss if least is None else min(least, used.ru_maxrss)
    return best, least * 1024


def program_run(how, size, logs):
    """The program over so many logs, and how many events they have."""
    count = logs * (LOG // size)
    best, least = measured([program, how, "row", str(size), str(count)], f"kept {count} rows {count * size} bytes\n")
    return best, least, count


def write_log(path, size):
    """A file of a log's events."""
    event = struct.pack("<IBIIIH", 0, 30, 1, size, 0, 0) + bytes(size - 19)
    with open(path, "wb") as sink:
        sink.write(b"\xfebin")
        for _ in range(LOG // size):
            sink.write(event)


def parse(path):
    """The seconds of the yardstick over the files of so many logs."""
    yard = [os.path.join(yardstick, "yard"), "parse", "-r", "1"]
    took = [measured(yard + [",".join([path] * count)])[0] for count in (1, LOGS + 1)]
    return took[1] - took[0]


for size in (30, 100, 300, 1_000):
    one, _, less = program_run("keep", size, 1)
    many, _, more = program_run("keep", size, LOGS + 1)
    took, count = many - one, more - less
    line = f"row events of {size} bytes: {count}, {1e9 * took / count:.0f} ns each"
    if yardstick:
        path = os.path.join(room, "log")
        write_log(path, size)
        hand = max(parse(path), 0.001)
        line += f"; yardstick, read: {1e9 * hand / count:.0f} ns, ratio {took / hand:.2f}"
    print(line, flush=True)
for size in (100, 1_000):
    logs = max(HELD_ROWS * size // LOG, 1)
    _, dropped, _ = program_run("keep", size, logs)
    _, held, count = program_run("hold", size, logs)
    print(f"row events of {size} bytes: {count // 10} runs of ten held, {(held - dropped) / count:.0f} bytes a row", flush=True)
PYTHON
