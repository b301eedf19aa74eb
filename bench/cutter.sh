#!/bin/sh
# cutter.sh PROGRAM [YARDSTICK [RUNS]]: times the cutting of events from pieces of 65,536 bytes.
#
# PROGRAM is the built `cdc_bench`, YARDSTICK a folder with the built `yard` (no word, or an empty one: no comparison),
# RUNS how often each is run (5 if left out). It needs python3, and says which of them is missing (status 2). The least
# time counts, in seconds of the processor, since other programs may run beside it. For row events of 30, 300 and 3,000
# bytes, about 1 GB of each, and for events of 100 MB a line gives the bytes that were cut in a second, the most memory
# that the program had, that of the same program where it only reads its log, and, with a yardstick, the time of `yard
# parse` over the same events in mapped files and by reads of 64 KiB (`-r 1`), and how many times longer the program
# takes. Over mapped files the yardstick copies nothing, and of a long event it touches the header alone. From each
# time that of a run over one log is taken off, so that making the log and starting the program count for nothing.
set -eu
. "$(dirname "$0")/needs.sh"

if [ $# -lt 1 ]; then
    echo "usage: cutter.sh PROGRAM [YARDSTICK [RUNS]]" >&2
    exit 2
fi
need "$1" "the built program cdc_bench"
if [ -n "${2:-}" ]; then
    need "$2/yard" "the built yardstick"
fi
room=$(mktemp -d)
trap 'rm -rf "$room"' EXIT
python3 - "$1" "${2:-}" "${3:-5}" "$room" <<'PYTHON'
import os
import struct
import subprocess
import sys

program, yardstick, runs, room = sys.argv[1], sys.argv[2], int(sys.argv[3]), sys.argv[4]
LOG = 1 << 26


def measured(words, wanted=None):
    """The least processor seconds of some runs, and the most memory of any, in MiB."""
    best, most = None, 0
    for _ in range(runs):
        process = subprocess.Popen(words, stdout=subprocess.PIPE, text=True)
        printed = process.stdout.read()
        _, answer, used = os.wait4(process.pid, 0)
        process.returncode = os.waitstatus_to_exitcode(answer)
        if process.returncode or wanted not in (None, printed):
            sys.exit(f"{' '.join(words[:3])}: status {process.returncode}, {printed!r}")
        took = used.ru_utime + used.ru_stime
        best = took if best is None else min(best, took)
        most = max(most, used.ru_maxrss // 1024)
    return best, most


def program_run(how, size, count):
    """The program over so many events."""
    return measured([program, how, "row", str(size), str(count)], f"read {count} events {count * size} bytes\n")


def write_log(path, size, held):
    """A file with so many events."""
    event = struct.pack("<IBIIIH", 0, 30, 1, size, 0, 0) + bytes(size - 19)
    with open(path, "wb") as sink:
        sink.write(b"\xfebin")
        for _ in range(held):
            sink.write(event)


def parse(path, logs, options):
    """The seconds of the yardstick over so many files of a log each."""
    yard = [os.path.join(yardstick, "yard"), "parse", *options]
    took = [measured(yard + [",".join([path] * count)])[0] for count in (1, logs + 1)]
    return took[1] - took[0]


for size, logs in ((30, 15), (300, 15), (3_000, 15), (100_000_000, 10)):
    held = max(LOG // size, 1)
    count = logs * held
    one, _ = program_run("cut", size, held)
    many, most = program_run("cut", size, count + held)
    _, reading = program_run("read", size, held)
    took = many - one
    line = (f"row events of {size} bytes: {count} in {1000 * took:.0f} ms, {count * size / took / 1e6:.0f} MB/s, "
            f"{most} MiB at most ({reading} MiB where the log is only read)")
    if yardstick:
        path = os.path.join(room, "log")
        write_log(path, size, held)
        for name, options in (("mapped", []), ("read", ["-r", "1"])):
            hand = max(parse(path, logs, options), 0.001)
            line += f"; yardstick, {name}: {1000 * hand:.0f} ms, ratio {took / hand:.2f}"
    print(line, flush=True)
PYTHON
