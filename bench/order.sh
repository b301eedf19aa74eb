#!/bin/sh
# order.sh PROGRAM [RUNS]: times entries through a sorter, and branches through a merger.
#
# PROGRAM is the built `cdc_bench`, RUNS how often each is run (5 if left out). It needs python3, and says which of them is
# missing (status 2). The least time counts, in seconds of the processor, since other programs may run beside it. For a
# sorter with 100 and with 200,000 open branches, and for a merger of 1, 4 and 256 nodes, a line gives the entries a second
# where 10,000, 100,000 and 1,000,000 go through it: an entry is a prepare or a commit for the sorter, and a branch, which is a
# transaction of its own, for the merger. From each time that of a run without any is taken off, so that starting the
# program and opening the first branches count for nothing. A time too short to be told from nothing has no figure.
set -eu
. "$(dirname "$0")/needs.sh"

if [ $# -lt 1 ]; then
    echo "usage: order.sh PROGRAM [RUNS]" >&2
    exit 2
fi
need "$1" "the built program cdc_bench"
python3 - "$1" "${2:-5}" <<'PYTHON'
import os
import subprocess
import sys

program, runs = sys.argv[1], int(sys.argv[2])
ENTRIES = (10_000, 100_000, 1_000_000)
# the least difference of two times that says something
TOLD = 0.002


def seconds(words, wanted):
    """The least processor seconds of some runs, which print this."""
    best = None
    for _ in range(runs):
        process = subprocess.Popen([program, *words], stdout=subprocess.PIPE, text=True)
        printed = process.stdout.read()
        _, answer, used = os.wait4(process.pid, 0)
        process.returncode = os.waitstatus_to_exitcode(answer)
        if process.returncode or printed != wanted:
            sys.exit(f"{' '.join(words)}: status {process.returncode}, {printed!r}, not {wanted!r}")
        took = used.ru_utime + used.ru_stime
        best = took if best is None else min(best, took)
    return best


def sort(opened, entries):
    """The seconds of a sorter: a commit and a prepare at a time, and the oldest branches are settled."""
    count = entries // 2
    settled = max(count + 1 - opened, 0) if count else 0
    return seconds(["sort", "open", str(opened), str(count)], f"sorted {opened + 2 * count} entries {settled} branches\n")


def merge(nodes, entries):
    """The seconds of a merger: each node gives a branch a round, and all are settled."""
    rounds = entries // nodes
    given = nodes * rounds
    return seconds(["merge", "nodes", str(nodes), str(rounds)], f"merged {given} transactions {given} branches\n")


def rate(entries, took):
    """The entries a second, where they can be told."""
    return f"{entries}: {entries / took / 1e6:.2f} million/s" if took >= TOLD else f"{entries}: no time"


def line(name, timed, size):
    """One row of the table."""
    none = timed(size, 0)
    print(name + " " + ", ".join(rate(entries, timed(size, entries) - none) for entries in ENTRIES), flush=True)


for opened in (100, 200_000):
    line(f"sorter, {opened} open branches, entries", sort, opened)
for nodes in (1, 4, 256):
    line(f"merger, {nodes} node{'s' if nodes > 1 else ''}, branches", merge, nodes)
PYTHON
