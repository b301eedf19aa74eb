#!/bin/sh
# check_tshark.sh [PROGRAM]: tshark reads one session of `serve` as the MySQL protocol: the greeting, the login, the dump and
# its place, and the end.
. "$(dirname "$0")/room.sh"
need tshark

"$program" run global.toml > published
printf '[[user]]\nname = "replica"\nhash = "14e65567abdb5135d0cfd9a70b3032c179a49ee7"\n' >> global.toml
serve global.toml 1
tshark -q -i lo -f "tcp port $port" -w session.pcap 2> told &
watcher=$!
started="$started $watcher"
for _ in $(seq 100); do
    if grep -q '^Capturing on' told && [ -s session.pcap ]; then break; fi
    kill -0 "$watcher" 2> /dev/null || skip "tshark may not listen at lo: $(grep -i -m 1 permission told || tail -n 1 told)"
    sleep 0.1
done
CDC_PASSWORD=secret python3 "$here/mirror.py" "127.0.0.1:$port" copy --user replica > /dev/null
served
sleep 1
kill -INT "$watcher"
wait "$watcher" || true
tshark -r session.pcap -d "tcp.port==$port,mysql" -Y mysql -T fields -E separator=' ' \
    -e mysql.version -e mysql.user -e mysql.command -e mysql.binlog.position > session 2> told || wrong "$(cat told)"
{ grep -q '5.7.0-cdc' session && grep -q replica session && grep -q '18 4' session; } || wrong "tshark reads: $(cat session)"
echo "$check: passed: $(tr -s ' \n' ' ' < session)"
