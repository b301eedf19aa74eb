# For the checks of this folder, which read it first: the program, a room of their own, and what they need.
#
# check_NAME.sh [PROGRAM]: PROGRAM is the built program (crates/cdc_prog/out/cdc_prog if left out). Where it or a tool is
# missing, the check says so in one line and ends with status 0.
set -eu
check=${0##*/}
here=$(cd "$(dirname "$0")" && pwd)
examples=$here/../examples

skip() { echo "$check: skipped: $1"; exit 0; }
wrong() { echo "$check: $1"; exit 1; }
need() {
    for tool in "$@"; do
        command -v "$tool" > /dev/null || skip "no $tool"
    done
}

program=${1:-$here/../crates/cdc_prog/out/cdc_prog}
[ -x "$program" ] || skip "no program is built at $program"
program=$(cd "$(dirname "$program")" && pwd)/${program##*/}
need python3
started=
room=$(mktemp -d)
export TMPDIR="$room"
# ends what this check started, by its ids, and leaves nothing behind
leave() {
    status=$?
    for id in $started; do kill "$id" 2> /dev/null || true; done
    for id in $started; do wait "$id" 2> /dev/null || true; done
    rm -rf "$room"
    [ "$status" = 0 ] || echo "$check: failed"
    exit "$status"
}
trap leave EXIT
cd "$room"
cp -R "$examples/." .
chmod -R u+w .
mkdir -p out

# a port of this machine that nothing listens on
free_port() { python3 -c 'import socket; s = socket.socket(); s.bind(("127.0.0.1", 0)); print(s.getsockname()[1])'; }

# until_there PORT: waits until something listens there, without a connection to it
until_there() {
    python3 - "$1" <<'PYTHON'
import sys
import time

wanted = f":{int(sys.argv[1]):04X}"
for _ in range(500):
    with open("/proc/net/tcp") as table:
        if any(line.split()[1].endswith(wanted) and line.split()[3] == "0A" for line in list(table)[1:]):
            sys.exit(0)
    time.sleep(0.02)
sys.exit(1)
PYTHON
}

# serve CONFIG COUNT [PORT]: serves the configuration's output to so many connections at a free port, or at this one
serve() {
    port=${3:-$(free_port)}
    sed "s/^listen = .*/listen = \"127.0.0.1:$port\"/" "$1" > "served.$port.toml"
    "$program" serve "served.$port.toml" --connections "$2" &
    server=$!
    started="$started $server"
    until_there "$port" || wrong "nothing listens at port $port"
}

# served: the server's status, which has to be 0 when all its connections were had
served() { wait "$server" || wrong "serve answers $?"; }
