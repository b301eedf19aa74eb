#!/bin/sh
# check_mirror.sh [PROGRAM]: mirror.py over `serve`, with and without a login: a copy has the published bytes, goes on where
# it ends or was broken off, and refusals are told.
. "$(dirname "$0")/room.sh"

# files of some transactions each
{ echo 'rotation = 300'; cat global.toml; } > small.toml
"$program" run small.toml > published
grep -q '^out 1 binlog.000004 ' published || wrong "four files were to be published: $(cat published)"

same() {
    for file in out/global/binlog.*; do
        cmp "$file" "$1/${file##*/}" || wrong "$2"
    done
}

serve small.toml 5
python3 "$here/mirror.py" "127.0.0.1:$port" copy > told
[ "out 1 $(cat told) 4" = "$(cat published)" ] || wrong "the copy ends at $(cat told), the files at $(cat published)"
same copy "a copy from nothing differs"
python3 "$here/mirror.py" "127.0.0.1:$port" copy > /dev/null
same copy "a copy that had all differs"
rm copy/binlog.000003 copy/binlog.000004
truncate -s 300 copy/binlog.000002
python3 "$here/mirror.py" "127.0.0.1:$port" copy > /dev/null
same copy "a copy that was broken off within an event differs"
# what is published later comes with the next call, and the server needn't be started anew
python3 make_log.py 1 data/n1 local:6:tea:40 beat:60
python3 make_log.py 2 data/n2 beat:60
"$program" run small.toml > published
python3 "$here/mirror.py" "127.0.0.1:$port" copy > /dev/null
same copy "a copy that went on differs"
# a copy of something else is refused, and stays
mkdir other
head -c 4 copy/binlog.000001 > other/binlog.000009
if python3 "$here/mirror.py" "127.0.0.1:$port" other 2> refused; then wrong "a file that isn't published was given"; fi
grep -q 'no such published position' refused || wrong "$(cat refused)"
served

printf '[[user]]\nname = "replica"\nhash = "14e65567abdb5135d0cfd9a70b3032c179a49ee7"\n[[user]]\nname = "open"\nhash = ""\n' >> small.toml
serve small.toml 5
if python3 "$here/mirror.py" "127.0.0.1:$port" more 2> refused; then wrong "a dump without a login"; fi
grep -q 'a login is wanted' refused || wrong "$(cat refused)"
CDC_PASSWORD=secret python3 "$here/mirror.py" "127.0.0.1:$port" logged --user replica > /dev/null
same logged "a copy behind a login differs"
python3 "$here/mirror.py" "127.0.0.1:$port" opened --user open > /dev/null
same opened "a copy of a user without a password differs"
for name in replica nobody; do
    if CDC_PASSWORD=wrong python3 "$here/mirror.py" "127.0.0.1:$port" more --user $name 2> refused; then wrong "$name came in"; fi
    grep -q 'access denied' refused || wrong "$(cat refused)"
done
served
echo "$check: passed"
