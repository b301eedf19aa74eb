#!/bin/sh
# check_mariadb.sh [PROGRAM]: a MariaDB in a folder of its own, fed from published files by to_mariadb: its rows have the
# count and the sum of those in the nodes' logs; what is published later is fed alone; and nothing is fed twice by a call
# that follows one that was stopped.
. "$(dirname "$0")/room.sh"
need mariadb mariadb-binlog mariadb-install-db
PATH=$PATH:/usr/sbin
need mariadbd

mariadb-install-db --no-defaults --datadir="$room/db" --auth-root-authentication-method=normal --skip-test-db > made 2>&1 ||
    skip "mariadb-install-db makes no database: $(tail -n 1 made)"
mariadbd --no-defaults --datadir="$room/db" --socket="$room/db.socket" --pid-file="$room/db.pid" --skip-networking \
    --innodb-buffer-pool-size=32M --user="$(id -un)" > log 2>&1 &
started=$!
db() { mariadb --no-defaults --socket="$room/db.socket" --user=root "$@"; }
for _ in $(seq 300); do
    if db -e 'SELECT 1' > /dev/null 2>&1; then break; fi
    sleep 0.1
done
db -e 'CREATE DATABASE shop' || wrong "no MariaDB: $(tail -n 3 log)"
feed() { "$here/to_mariadb" out/global --no-defaults --socket="$room/db.socket" --user=root; }
# rows COUNT SUM: the MariaDB has so many rows of so many cents together
rows() {
    found=$(db -N -B -e 'SELECT COUNT(*), SUM(cents) FROM shop.orders' | tr '\t' ' ')
    [ "$found" = "$1 $2" ] || wrong "the MariaDB has $found, the logs $1 $2"
}

{ echo 'rotation = 100000'; cat global.toml; } > small.toml
"$program" run small.toml > published
mariadb-binlog --no-defaults out/global/binlog.000001 > /dev/null 2>&1 && wrong "the marks are read without --force-read"
feed > told
[ "out 1 $(cat told) 4" = "$(cat published)" ] || wrong "fed up to $(cat told), published up to $(cat published)"
rows 5 600

# transactions 101 to 1100 over both nodes, each a row of its number modulo 1000 on each
for node in 1 2; do python3 make_log.py $node data/n$node many:101:1000:2; done
"$program" run small.toml > published
grep -q 'binlog.00000[2-9]' published || wrong "several files were to be published: $(cat published)"
# a call that is stopped in its midst: the MariaDB refuses a row that stands there already
db -e 'INSERT INTO shop.orders VALUES (1000, "in the way", 0)'
if feed > told 2> refused; then wrong "a row was fed over another one"; fi
grep -q 'Duplicate entry' refused || wrong "$(cat refused)"
rows $((5 + 2 * (499 - 100) + 1)) $((600 + 2 * (499 * 500 / 2 - 100 * 101 / 2)))
db -e 'DELETE FROM shop.orders WHERE id = 1000'
# calls that are killed somewhere on the way
for tenth in 2 3 4 5; do
    (timeout -s KILL 0.$tenth "$here/to_mariadb" out/global --no-defaults --socket="$room/db.socket" --user=root || true) > /dev/null 2>&1
done
feed > told
[ "out 1 $(cat told) 1004" = "$(cat published)" ] || wrong "fed up to $(cat told), published up to $(cat published)"
rows 2005 $((600 + 2 * 499500))
feed > told
rows 2005 $((600 + 2 * 499500))
[ "$(db -N -B -e 'SELECT GROUP_CONCAT(id ORDER BY id) FROM shop.orders WHERE id < 10')" = 1,2,3,4,5 ] || wrong "other rows"
echo "$check: passed: 2005 rows, $((600 + 2 * 499500)) cents"
