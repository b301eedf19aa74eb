#!/bin/sh
# run.sh PROGRAM YARDSTICK [RUNS [SCALE [SHAPE ..]]]: times `run` beside a program that was written by hand.
#
# PROGRAM is the built program `cdc`, YARDSTICK a folder with the built generator `gen` and the built `yard`, RUNS how
# often each is run (3 if left out; the least time counts), SCALE the size of the logs (0.1 if left out; 1 gives a
# million transactions), SHAPE one or more of txns, small, open and wide (all if left out). It needs python3, and says
# which of them is missing (status 2).
#
# Each shape's logs go into one output with files of 512 MiB, with `run` and with `yard run .. group`, which syncs in groups
# as `run` does; where EACH is set in the environment, also with `yard run .. papers`, which syncs behind each transaction and
# takes minutes. A line gives the nodes, the bytes of the logs and of the files, and for each the processor seconds, the
# seconds by the clock and the peak MiB; then the time of `run` by that of the group. All run in turn, so that what else the
# machine does meets all of them. The published files have to be equal. A second line gives what `run` takes where nothing is new, and where the logs have grown by 1 %. The folders
# are made in that of temporary files, TMPDIR, and removed.
set -eu
. "$(dirname "$0")/needs.sh"

if [ $# -lt 2 ]; then
    echo "usage: run.sh PROGRAM YARDSTICK [RUNS [SCALE [SHAPE ..]]]" >&2
    exit 2
fi
need "$1" "the built program cdc"
need "$2/gen" "the built generator of logs"
need "$2/yard" "the built yardstick"
program=$1
yardstick=$2
runs=${3:-3}
scale=${4:-0.1}
if [ $# -gt 4 ]; then
    shift 4
else
    set -- txns small open wide
fi
room=$(mktemp -d)
trap 'rm -rf "$room"' EXIT
status=0
for shape in "$@"; do
    python3 - "$program" "$yardstick" "$room" "$runs" "$scale" "$shape" <<'PYTHON' || status=1
import os
import shutil
import subprocess
import sys
import time

program, yardstick, room, runs, scale, shape = *sys.argv[1:4], int(sys.argv[4]), float(sys.argv[5]), sys.argv[6]
program, yardstick = os.path.abspath(program), os.path.abspath(yardstick)
gen, yard = os.path.join(yardstick, "gen"), os.path.join(yardstick, "yard")
ROTATION = 536_870_912
SHAPES = {   # the generator's word, the nodes, its further words
    "txns": ("txns", 4, [4, int(1_000_000 * scale), 100, 1000]),
    "small": ("drill", 4, [7, 4, int(1_000_000 * scale)]),
    "open": ("open", 4, [4, int(1_000_000 * scale), int(200_000 * scale)]),
    "wide": ("txns", 256, [256, int(500_000 * scale), 100, 1000]),
}


def timed(words):
    """The processor seconds, the seconds by the clock and the peak MiB of a call, which has to answer 0."""
    begin = time.monotonic()
    process = subprocess.Popen(words, stdout=subprocess.DEVNULL, stderr=subprocess.DEVNULL)
    _, answer, used = os.wait4(process.pid, 0)
    process.returncode = os.waitstatus_to_exitcode(answer)
    if process.returncode:
        sys.exit(f"{shape}: {words[0]} answers {process.returncode}")
    return used.ru_utime + used.ru_stime, time.monotonic() - begin, used.ru_maxrss / 1024


def emptied(name):
    """An empty folder."""
    path = os.path.join(room, name)
    shutil.rmtree(path, ignore_errors=True)
    os.mkdir(path)
    return path


def published(folder):
    """The bytes of all published files, in order."""
    names = sorted(name for name in os.listdir(folder) if name.startswith("binlog."))
    return b"".join(open(os.path.join(folder, name), "rb").read() for name in names)


def configuration(files, out, task):
    """A configuration of these nodes and one output."""
    path = os.path.join(room, "global.toml")
    with open(path, "w") as sink:
        sink.write(f"rotation = {ROTATION}\n")
        for file in files:
            sink.write(f'[[node]]\nfiles = ["{file}"]\n')
        sink.write(f'[[out]]\nfolder = "{out}"\n[task]\nfolder = "{task}"\n')
    return path


if shape not in SHAPES:
    sys.exit(f"run.sh: no shape {shape}")
kind, nodes, further = SHAPES[shape]
logs = os.path.join(room, "logs")
shutil.rmtree(logs, ignore_errors=True)
subprocess.run([gen, kind, logs, *map(str, further)], check=True)
files = [os.path.join(logs, f"node{number}") for number in range(1, nodes + 1)]
best = {}
for _ in range(runs):
    for name in ("run", "group") + (("papers",) if os.environ.get("EACH") else ()):
        out = emptied(name)
        words = [program, "run", configuration(files, out, emptied("task"))] if name == "run" else [yard, "run", out, str(ROTATION), name, *files]
        best[name] = min(timed(words), best.get(name, (1e9,)))
if published(os.path.join(room, "run")) != published(os.path.join(room, "group")):
    sys.exit(f"{shape}: the files differ")
size = sum(os.path.getsize(path) for path in files)
length = len(published(os.path.join(room, "run")))
told = ", ".join(f"{name} {took:.2f} s ({clock:.2f} s by the clock) {peak:.0f} MiB" for name, (took, clock, peak) in best.items())
print(f"{shape}: {nodes} nodes, logs {size / 2 ** 20:.0f} MiB, files {length / 2 ** 20:.0f} MiB; {told}; run by group {best['run'][0] / best['group'][0]:.2f}")

# nothing new; and logs that have grown by 1 %
config = configuration(files, os.path.join(room, "run"), os.path.join(room, "task"))
again = min(timed([program, "run", config]) for _ in range(runs))
out, task = emptied("run"), emptied("task")
wholes = {path: os.path.getsize(path) for path in files}
for path, whole in wholes.items():
    shutil.copy(path, path + ".whole")
    os.truncate(path, whole * 99 // 100)
config = configuration(files, out, task)
timed([program, "run", config])
for path in files:
    os.replace(path + ".whole", path)
grown = timed([program, "run", config])
if len(published(out)) != length:
    sys.exit(f"{shape}: {len(published(out))} bytes behind logs that have grown, and {length} at once")
print(f"{shape}: nothing new {again[0]:.3f} s ({again[1]:.3f} s by the clock), grown by 1 % {grown[0]:.3f} s ({grown[1]:.3f} s by the clock)")
PYTHON
done
exit $status
