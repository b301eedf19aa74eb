#!/bin/sh
# dump.sh PROGRAM BENCH [RUNS [UNITS]]: times the dump of an output over loopback beside a plain copying of its files.
#
# PROGRAM is the built program `cdc`, BENCH the built `cdc_bench`, which publishes the output, RUNS how often each is run
# (3 if left out), UNITS how many units of 8,000 bytes it has (131,072 if left out, about 1 GB). It needs python3, and says
# which of them is missing (status 2). A client asks for all files from the first on, and reads to the end of the
# connection, into one kept piece of memory and without a look at it; beside it, in turn, a process of python3 sends the
# same files over a connection by pieces of 64 KiB, and the same client reads them. A line gives the bytes that came and
# the megabytes a second of both, the median of the runs with the least and the greatest, the ratio of the medians, and the
# most memory that the program had. The files stay in the system's cache, so that no disk is timed. The folder is made in
# that of temporary files, TMPDIR, and removed.
set -eu
. "$(dirname "$0")/needs.sh"

if [ $# -lt 2 ]; then
    echo "usage: dump.sh PROGRAM BENCH [RUNS [UNITS]]" >&2
    exit 2
fi
need "$1" "the built program cdc"
need "$2" "the built program cdc_bench"
room=$(mktemp -d)
trap 'rm -rf "$room"' EXIT
python3 - "$1" "$2" "${3:-3}" "${4:-131072}" "$room" <<'PYTHON'
import os
import socket
import statistics
import struct
import subprocess
import sys
import time

program, bench, room = os.path.abspath(sys.argv[1]), os.path.abspath(sys.argv[2]), sys.argv[5]
runs, units = int(sys.argv[3]), int(sys.argv[4])
FOLDER = os.path.join(room, "published")
PIECE = 1 << 16
SENDER = """
import os, socket, sys
listener = socket.create_server(("127.0.0.1", int(sys.argv[1])))
link, _ = listener.accept()
for path in sys.argv[2:]:
    with open(path, "rb", buffering=0) as file:
        while piece := file.read(65536):
            link.sendall(piece)
"""


def free_port():
    """A port that was free a moment ago."""
    with socket.create_server(("127.0.0.1", 0)) as one:
        return one.getsockname()[1]


def connected(port):
    """A connection to a port, as soon as something listens there."""
    for _ in range(500):
        try:
            return socket.create_connection(("127.0.0.1", port))
        except ConnectionRefusedError:
            time.sleep(0.02)
    sys.exit(f"nothing listens at {port}")


def received(link):
    """How many bytes come to the end of a connection."""
    room, total = bytearray(4 * PIECE), 0
    while count := link.recv_into(room):
        total += count
    return total


def timed(words, port, request):
    """The bytes that come of a process that answers one connection, the seconds, and its most memory in MiB."""
    process = subprocess.Popen(words)
    with connected(port) as link:
        begin = time.perf_counter()
        if request:
            link.sendall(request)
        total = received(link)
        took = time.perf_counter() - begin
    _, answer, used = os.wait4(process.pid, 0)
    process.returncode = os.waitstatus_to_exitcode(answer)
    if process.returncode:
        sys.exit(f"{words[0]}: status {process.returncode}")
    return total, took, used.ru_maxrss / 1024


def dump():
    """One dump of all files, to the end of the connection."""
    port = free_port()
    config = os.path.join(room, "config.toml")
    with open(config, "w", encoding="utf-8") as file:
        file.write(f"[[node]]\nfiles = ['none']\n[[out]]\nfolder = '{FOLDER}'\nlisten = '127.0.0.1:{port}'\n"
                   f"[task]\nfolder = '{os.path.join(room, 'task')}'\n")
    payload = b"\x12" + struct.pack("<IHI", 4, 0, 1)
    request = len(payload).to_bytes(3, "little") + b"\0" + payload
    return timed([program, "serve", config, "--connections", "1"], port, request)


def copy(paths):
    """The same files, sent as they are."""
    port = free_port()
    return timed([sys.executable, "-c", SENDER, str(port)] + paths, port, b"")


def spread(rates):
    return f"{statistics.median(rates):.0f} MB/s ({min(rates):.0f} to {max(rates):.0f})"


subprocess.run([bench, "publish", "4096", "8000", str(units)], cwd=room, stdout=subprocess.DEVNULL, check=True)
files = sorted(os.path.join(FOLDER, name) for name in os.listdir(FOLDER) if name.startswith("binlog."))
size = sum(os.path.getsize(path) for path in files)
own, hand, memory, came = [], [], 0, 0
for _ in range(runs):
    total, took, most = dump()
    if total < size:
        sys.exit(f"a dump of {total} bytes for files of {size}")
    own.append(total / took / 1e6)
    memory, came = max(memory, most), total
    total, took, _ = copy(files)
    if total != size:
        sys.exit(f"a copy of {total} bytes for files of {size}")
    hand.append(total / took / 1e6)
print(f"files of {size} bytes, {came} came: dump {spread(own)}, plain copy {spread(hand)}, "
      f"ratio {statistics.median(own) / statistics.median(hand):.2f}; {memory:.0f} MiB at most")
PYTHON
