#!/usr/bin/env bash
# consumers.sh [PROGRAM]: runs the checks of consumers/, each of which says in a line what it is missing and skips itself then.
#
# PROGRAM is the built program (crates/cdc_prog/out/cdc_prog if left out).
set -u
cd "$(dirname "$0")/.." || exit 1
program=${1:-crates/cdc_prog/out/cdc_prog}
failed=0
for check in consumers/check_*.sh; do
  sh "$check" "$program" || failed=1
done
exit "$failed"
