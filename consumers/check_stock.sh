#!/bin/sh
# check_stock.sh [PROGRAM]: what stock clients ask of `serve` first. A ping is answered; those that begin with SQL are refused
# and say so: the client mariadb, mariadb-binlog over the network, a MariaDB replica.
. "$(dirname "$0")/room.sh"
need mariadb mariadb-admin mariadb-binlog mariadb-install-db
PATH=$PATH:/usr/sbin
need mariadbd

"$program" run global.toml > published
printf '[[user]]\nname = "replica"\nhash = "14e65567abdb5135d0cfd9a70b3032c179a49ee7"\n' >> global.toml

# between COUNT: a server for so many connections, and a listener before it that tells what is asked in the file `asked`
between() {
    serve global.toml "$1"
    door=$(free_port)
    python3 "$here/asked.py" "$door" "127.0.0.1:$port" "$1" > asked &
    started="$started $!"
    until_there "$door" || wrong "nothing listens at port $door"
}
login() { client=$1; shift; "$client" --no-defaults --host=127.0.0.1 --port="$door" --protocol=TCP --skip-ssl --user=replica --password=secret "$@"; }
# first CLIENT WANTED: what was asked first
first() {
    found=$(head -n 1 asked)
    case $found in
        $2*) echo "$check: $1 asks first: $found" ;;
        *) wrong "$1 asks first: $found; $(cat told)" ;;
    esac
}

between 1
login mariadb-admin ping > told 2>&1 || wrong "a ping is refused: $(cat told)"
served
first mariadb-admin ping

between 1
if login mariadb -e 'SELECT 1' > told 2>&1; then wrong "SQL was answered"; fi
served
first mariadb query

between 1
if login mariadb-binlog --read-from-remote-server binlog.000001 > told 2>&1; then wrong "mariadb-binlog was served"; fi
served
first 'mariadb-binlog --read-from-remote-server' query

mariadb-install-db --no-defaults --datadir="$room/db" --auth-root-authentication-method=normal --skip-test-db > made 2>&1 ||
    skip "mariadb-install-db makes no database: $(tail -n 1 made)"
mariadbd --no-defaults --datadir="$room/db" --socket="$room/db.socket" --pid-file="$room/db.pid" --skip-networking \
    --innodb-buffer-pool-size=32M --server-id=2 --user="$(id -un)" > log 2>&1 &
started="$started $!"
db() { mariadb --no-defaults --socket="$room/db.socket" --user=root "$@"; }
for _ in $(seq 300); do
    if db -e 'SELECT 1' > /dev/null 2>&1; then break; fi
    sleep 0.1
done
between 1
db -e "CHANGE MASTER TO MASTER_HOST = '127.0.0.1', MASTER_PORT = $door, MASTER_USER = 'replica', MASTER_PASSWORD = 'secret',
    MASTER_LOG_FILE = 'binlog.000001', MASTER_LOG_POS = 4, MASTER_USE_GTID = no; START SLAVE IO_THREAD" || wrong "no MariaDB: $(tail -n 3 log)"
for _ in $(seq 100); do
    [ -s asked ] && break
    sleep 0.1
done
db -e 'STOP SLAVE'
db -e 'SHOW SLAVE STATUS\G' | grep -E 'Last_IO_Err' > told || true
served
first 'a MariaDB replica' query
echo "$check: passed"
