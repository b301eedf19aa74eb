#!/usr/bin/env bash
# The wrong edits, before and behind the gate: each can be applied, no crate has more than six, and none was a BAD EDIT in the
# gate's log, whose path is the first argument, where there is one. (The gate itself counts a BAD EDIT as passed.)
set -u
log=$(realpath -- "${1:-/dev/null}")
cd "$(dirname "$0")/.." || exit 1
failed=0

if grep -E 'BAD EDIT' "$log"; then
  echo 'edits: the gate could not try these; mend or remove them'
  failed=1
fi

python3 - <<'END' || failed=1
import pathlib, sys
MOST = 6
failed = False

def fail(edit, what):
    global failed
    print(f'edits: {edit}: {what}')
    failed = True

def pairs(text):
    """The file, old and new texts of an edit, in order; a file's line holds for the pairs behind it."""
    file, old = None, None
    for line in text.splitlines():
        if line.startswith('file: '):
            file = line[6:]
        elif line.startswith('old: '):
            old = line[5:]
        elif line.startswith('new: ') or line == 'new:':
            yield file, old, line[5:]
            old = None

for crate in sorted(pathlib.Path('crates').iterdir()):
    edits = sorted(crate.glob('must-fail/*.edit'))
    if len(edits) > MOST:
        fail(crate, f'{len(edits)} edits, and {MOST} are the most')
    for edit in edits:
        texts, number = {}, 0
        for file, old, new in pairs(edit.read_text()):
            number += 1
            if file is None or old is None:
                fail(edit, 'a new text without its file or its old text')
                continue
            if not file.startswith('src/'):
                fail(edit, f'{file} is no code: an edit of a definition or a proof shows nothing of a contract')
            path = crate / file
            if not path.is_file():
                fail(edit, f'no file {file}')
                continue
            text = texts.get(file) or path.read_text()
            if text.count(old) != 1:
                fail(edit, f'its old text stands {text.count(old)} times in {file}: {old.strip()[:60]}')
                continue
            if old == new:
                fail(edit, 'it changes nothing')
            texts[file] = text.replace(old, new)
        if number == 0:
            fail(edit, 'it says nothing to change')
sys.exit(failed)
END
exit "$failed"
