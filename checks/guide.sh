#!/usr/bin/env bash
# guide.sh [PROGRAM]: runs the commands of the documents as they stand, and compares what they print.
#
# PROGRAM is the built program (crates/cdc_prog/out/cdc_prog if left out). A block ```console of README.md, docs/OPERATING.md
# and consumers/README.md has commands behind `$ ` (going on behind `> `) and, below each, all that it prints on both
# streams. The blocks of a document run in their order in one shell, in a fresh copy of what the repository keeps for
# operators, with a home of its own. ```console needs TOOL .. is run where these tools are there. Each row of OPERATING's
# table of statuses has to be met by a command that is shown. The manual page is linted where mandoc or groff is there, and
# the example's logs are made anew. What is missing is told in a line and skipped.
set -u
cd "$(dirname "$0")/.." || exit 1
program=${1:-crates/cdc_prog/out/cdc_prog}
failed=0

if ! command -v python3 > /dev/null; then
  echo 'guide: skipped: no python3'
  exit 0
fi

# the manual page
if command -v mandoc > /dev/null; then
  mandoc -T lint -W style docs/cdc.1 2> /dev/null | sed 's/^/guide: /' | grep . && failed=1
elif command -v groff > /dev/null; then
  groff -mandoc -T utf8 -ww -z docs/cdc.1 2>&1 | sed 's/^/guide: /' | grep . && failed=1
else
  echo 'guide: the manual page is not linted: no mandoc and no groff'
fi
# the picture
if command -v xmllint > /dev/null; then
  xmllint --noout docs/pipeline.svg || failed=1
fi
# the example's logs are those of their script
room=$(mktemp -d) || exit 1
trap 'rm -rf "$room"' EXIT
examples/make_logs "$room/logs" && diff -r "$room/logs" examples/data > /dev/null || {
  echo 'guide: examples/make_logs makes other logs than examples/data'
  failed=1
}

if [ -x "$program" ]; then
  python3 checks/guide.py "$program" "$room" || failed=1
  # the units
  if command -v systemd-analyze > /dev/null; then
    scripts/install "$room/units" "$program" > /dev/null
    systemd-analyze verify --man=no "$room"/units/lib/systemd/system/cdc-*.* 2>&1 | sed 's/^/guide: /' | grep cdc- && failed=1
  fi
else
  python3 checks/guide.py || failed=1
  echo "guide: the commands are skipped: no program is built at $program"
fi
exit "$failed"
