#!/usr/bin/env bash
# words.sh: each code word of the documents is there.
#
# A code word is what stands in single backticks in README.md and docs/*.md and looks like one identifier (with a capital
# letter or an underscore), a path a::b, or a call name(). Each has to stand as a whole word in the crates' src, specs or
# proofs, in crates.txt, scripts, bench, consumers, examples or checks, or in the short list of words.py with its reason.
set -u
cd "$(dirname "$0")/.." || exit 1

if ! command -v python3 > /dev/null; then
  echo 'words: skipped: no python3'
  exit 0
fi
python3 checks/words.py
