#!/bin/sh
# print.sh PROGRAM YARDSTICK [RUNS [SCALE [SHAPE ..]]]: times `print` beside a program that was written by hand.
#
# PROGRAM is the built program `cdc`, YARDSTICK a folder with the built generator `gen` and the built `yard`, RUNS how
# often each is run (3 if left out; the least time counts), SCALE the size of the logs (0.1 if left out; 1 gives a
# million transactions), SHAPE one or more of txns, small, open, wide and large (all if left out). It needs python3, and
# says which of them is missing (status 2).
#
# For each shape a line gives the nodes, the bytes of the logs and of the file, then for `print`, for `yard print -r 1`,
# which reads in pieces as `print` does, and for `yard print`, which maps its files, the processor seconds and the peak
# MiB, and last the times of `print` by those of the two. All run in turn, so that what else the machine does meets all of
# them. Their files have to be equal, and the peak of `print` is to be at most its file, what waits at the end of the
# logs, and 64 MiB; what waits isn't known here, so the peak is told beside the file and not tested. A peak is that of
# one run under the program `time`, where there is one.
set -eu
. "$(dirname "$0")/needs.sh"

if [ $# -lt 2 ]; then
    echo "usage: print.sh PROGRAM YARDSTICK [RUNS [SCALE [SHAPE ..]]]" >&2
    exit 2
fi
need "$1" "the built program cdc"
need "$2/gen" "the built generator of logs"
need "$2/yard" "the built yardstick"
program=$1
yardstick=$2
runs=${3:-3}
scale=${4:-0.1}
if [ $# -gt 4 ]; then
    shift 4
else
    set -- txns small open wide large
fi
room=$(mktemp -d)
trap 'rm -rf "$room"' EXIT
status=0
for shape in "$@"; do
    python3 - "$program" "$yardstick" "$room" "$runs" "$scale" "$shape" <<'PYTHON' || status=1
import os
import shutil
import subprocess
import sys

program, yardstick, room, runs, scale, shape = *sys.argv[1:4], int(sys.argv[4]), float(sys.argv[5]), sys.argv[6]
gen, yard = os.path.join(yardstick, "gen"), os.path.join(yardstick, "yard")
SHAPES = {   # the generator's word, the nodes, its further words
    "txns": ("txns", 4, [4, int(1_000_000 * scale), 100, 1000]),
    "small": ("drill", 4, [7, 4, int(1_000_000 * scale)]),
    "open": ("open", 4, [4, int(1_000_000 * scale), int(200_000 * scale)]),
    "wide": ("txns", 256, [256, int(500_000 * scale), 100, 1000]),
    "large": ("large", 4, [4, max(1, int(16 * scale)), 60_000_000, 8000]),
}


def seconds(words):
    """The processor seconds of a run that writes to nowhere, and its status."""
    process = subprocess.Popen(words, stdout=subprocess.DEVNULL, stderr=subprocess.DEVNULL)
    _, answer, used = os.wait4(process.pid, 0)
    process.returncode = os.waitstatus_to_exitcode(answer)
    return used.ru_utime + used.ru_stime, used.ru_maxrss, process.returncode


def peak_of(words, inherited):
    """The peak KiB of one run more, without what a child takes over from this process."""
    timer = shutil.which("time")
    if timer is None:
        return inherited
    told = os.path.join(room, "peak")
    subprocess.run([timer, "-f", "%M", "-o", told, *words], stdout=subprocess.DEVNULL, check=True)
    with open(told) as source:
        return int(source.read())


def file_of(words, name):
    """The file that a run writes."""
    path = os.path.join(room, name)
    with open(path, "wb") as sink:
        subprocess.run(words, stdout=sink, check=True)
    return path


if shape not in SHAPES:
    sys.exit(f"print.sh: no shape {shape}")
kind, nodes, further = SHAPES[shape]
logs = os.path.join(room, "logs")
shutil.rmtree(logs, ignore_errors=True)
subprocess.run([gen, kind, logs, *map(str, further)], check=True)
files = [os.path.join(logs, f"node{number}") for number in range(1, nodes + 1)]
calls = {"print": [program, "print", *files], "pieces": [yard, "print", "-r", "1", *files], "mapped": [yard, "print", *files]}
best, peaks, statuses = {}, {}, set()
for _ in range(runs):
    for name, words in calls.items():
        took, peak, answer = seconds(words)
        best[name] = min(took, best.get(name, took))
        peaks[name] = max(peak, peaks.get(name, 0))
        statuses.add(answer)
if statuses != {0}:
    sys.exit(f"{shape}: statuses {statuses}")
for name, words in calls.items():
    peaks[name] = peak_of(words, peaks[name])
out, want = file_of(calls["print"], "out"), file_of(calls["pieces"], "want")
told = ", ".join(f"{name} {best[name]:.2f} s {peaks[name] / 1024:.0f} MiB" for name in calls)
size = sum(os.path.getsize(path) for path in files)
print(f"{shape}: {nodes} nodes, logs {size / 2 ** 20:.0f} MiB, file {os.path.getsize(out) / 2 ** 20:.0f} MiB; {told}; "
      f"print by pieces {best['print'] / best['pieces']:.2f}, by mapped {best['print'] / best['mapped']:.2f}")
if subprocess.run(["cmp", "-s", out, want]).returncode:
    sys.exit(f"{shape}: the files differ")
PYTHON
done
exit $status
