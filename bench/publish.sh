#!/bin/sh
# publish.sh PROGRAM [YARDSTICK [RUNS]]: times the publishing of units, one by one and in groups.
#
# PROGRAM is the built `cdc_bench`, YARDSTICK a folder with the built `gen` and `yard` (no word, or an empty one: no
# comparison), RUNS how often each is run (5 if left out). It needs python3, and says which of them is missing (status
# 2). For units whose prints have about 300 and about 8,000 bytes, published each by itself and in groups of 16, 256 and
# 4,096, a line gives the units a second over real files with their syncs, by the clock: the median of the runs, with
# the least and the greatest. With a yardstick it gives those of `yard run papers` and `yard run group` too, over logs of
# transactions of about the same prints, and the median of the rounds' ratios: a round runs both, one behind the other,
# so that what else the disk does meets both. The yardstick reads and merges its logs in that time, and the program makes
# its units. The folders are made in that of temporary files, TMPDIR, and removed.
set -eu
. "$(dirname "$0")/needs.sh"

if [ $# -lt 1 ]; then
    echo "usage: publish.sh PROGRAM [YARDSTICK [RUNS]]" >&2
    exit 2
fi
need "$1" "the built program cdc_bench"
if [ -n "${2:-}" ]; then
    need "$2/gen" "the built generator of logs"
    need "$2/yard" "the built yardstick"
fi
room=$(mktemp -d)
trap 'rm -rf "$room"' EXIT
python3 - "$1" "${2:-}" "${3:-5}" "$room" <<'PYTHON'
import os
import shutil
import statistics
import subprocess
import sys
import time

program, yardstick, runs, room = os.path.abspath(sys.argv[1]), sys.argv[2], int(sys.argv[3]), sys.argv[4]
ROTATION = 1 << 30
COUNTS = {300: {1: 512, 16: 4_096, 256: 32_768, 4_096: 131_072}, 8_000: {1: 512, 16: 4_096, 256: 16_384, 4_096: 32_768}}
# what a print of the yardstick's has beside its one row event
BESIDE = 172


def clocked(words, folder):
    """The seconds of a run in a folder of its own, and what it printed."""
    os.mkdir(folder)
    begin = time.perf_counter()
    done = subprocess.run(words, cwd=folder, stdout=subprocess.PIPE, text=True, check=False)
    took = time.perf_counter() - begin
    shutil.rmtree(folder)
    if done.returncode:
        sys.exit(f"{' '.join(words[:4])}: status {done.returncode}, {done.stdout!r}")
    return took, done.stdout


def publish(size, group, count):
    """The program's units a second."""
    took, printed = clocked([program, "publish", str(group), str(size), str(count)], os.path.join(room, "own"))
    want = f"published {count} units {123 + count * size} bytes\n"
    if printed != want:
        sys.exit(f"publish {group} {size} {count}: {printed!r}, not {want!r}")
    return count / took


def logs(size, count):
    """A log of so many transactions, for the yardstick."""
    folder = os.path.join(room, f"logs.{size}.{count}")
    if not os.path.isdir(folder):
        event = str(size - BESIDE)
        gen = [os.path.join(os.path.abspath(yardstick), "gen"), "txns", folder, "1", str(count), event, event]
        subprocess.run(gen, check=True)
    return os.path.join(folder, "node1")


def hand(size, group, log):
    """The yardstick's units a second, and the bytes of a print."""
    how = "papers" if group == 1 else f"group={group}"
    yard = [os.path.join(os.path.abspath(yardstick), "yard"), "run", "out", str(ROTATION), how, "-w", str(1 << 62), log]
    took, printed = clocked(yard, os.path.join(room, "hand"))
    _, _, _, length, count = printed.split()
    return int(count) / took, (int(length) - 123) / int(count)


def line(size, group, count):
    """One column of the table."""
    own, other, ratios, print_bytes = [], [], [], 0
    log = logs(size, count) if yardstick else None
    for _ in range(runs):
        if log:
            units, print_bytes = hand(size, group, log)
            other.append(units)
        own.append(publish(size, group, count))
        if log:
            ratios.append(own[-1] / other[-1])
    name = "each by itself" if group == 1 else f"groups of {group}"
    text = f"prints of {size} bytes, {name}: {statistics.median(own):.0f} units/s ({min(own):.0f} to {max(own):.0f})"
    if log:
        text += (f"; yardstick, prints of {print_bytes:.0f} bytes: {statistics.median(other):.0f} units/s "
                 f"({min(other):.0f} to {max(other):.0f}), ratio {statistics.median(ratios):.2f}")
    print(text, flush=True)


for size, groups in COUNTS.items():
    for group, count in groups.items():
        line(size, group, count)
    for folder in os.listdir(room):
        shutil.rmtree(os.path.join(room, folder))
PYTHON
