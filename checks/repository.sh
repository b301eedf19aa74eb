#!/usr/bin/env bash
# What no proof sees: the fixed files, sizes, the map of the crates, the words of specs, and that the repository stands alone.
set -u
cd "$(dirname "$0")/.." || exit 1
failed=0
fail() { echo "repository: $1"; failed=1; }

[ "$(cat HANDLES)" = 'Handles allowed: Threads, Wait, Net.' ] || fail 'HANDLES is not its one line'
for crate in crates/*/; do
  name=$(basename "$crate")
  grep -qE "^$name( |:)" crates.txt || fail "$name is not in crates.txt"
  root=$crate/src/lib.rt
  [ -f "$root" ] || root=$crate/src/main.rt
  head -n 1 "$root" | grep -q '^//!' || fail "$name: its root file doesn't say what it is for"
done
long=$(find crates -name '*.rt' -not -path '*/out/*' -exec wc -l {} + | awk '$2 != "total" && $1 > 400 {print $2}')
[ -z "$long" ] || fail "files of more than 400 lines: $long"
places=$(grep -rnIE '(^|[^[:alnum:]_.])/(home|root|tmp|opt|usr|srv|mnt)/[[:alnum:]]' --include='*.rt' --include='*.antt' --include='*.md' --include='*.edit' . | head -n 3)
[ -z "$places" ] || fail "paths of a machine: $places"

# what a run leaves in a crate's folder isn't kept
if left=$(git ls-files 'crates/*_tests' 2>/dev/null); then
  left=$(echo "$left" | grep -vE '^crates/[a-z_]+/(src|proofs|specs|data)/' | head -n 3)
  [ -z "$left" ] || fail "left by a run: $left"
fi

# crates.txt goes up the layers: a crate lists only crates above its own line
below=$(awk -F: '
  /^#/ || !NF {next}
  {split($1, head, " "); own[head[1]] = NR; line[NR] = head[1]; deps[NR] = $2}
  END {
    for (n in line) {
      count = split(deps[n], each, " ")
      for (i = 1; i <= count; i++) if (each[i] in own && own[each[i]] > n + 0) print line[n] " lists " each[i] ", which stands below it"
    }
  }' crates.txt)
[ -z "$below" ] || fail "crates.txt: $below"
# and ARCHITECTURE's table of layers has just these crates
listed=$(sed -n '/^## The layers/,/^## /p' docs/ARCHITECTURE.md | grep '^|' | awk -F'|' '{print $3}' | grep -oE '`[a-z_]+`' | tr -d '\140' | sort)
named=$(grep -vE '^#|^$' crates.txt | sed 's/[ :].*//' | sort)
differ=$(diff <(echo "$listed") <(echo "$named"))
[ -z "$differ" ] || fail "ARCHITECTURE's layers and crates.txt differ: $differ"

# one word of specs, one definition; and a line of plain words above each
python3 - <<'END' || failed=1
import pathlib, re, sys
begins = re.compile(r'^(?:(?:abbrev|unfoldable|opaque) )?pub (?:record |data )?([A-Za-z_][A-Za-z0-9_]*)\b')
skipped = {'use', 'mod'}
places, bare = {}, []
for path in sorted(pathlib.Path('crates').glob('*/specs/**/*.antt')):
    above, seen = '', set()
    for line in path.read_text().splitlines():
        found = begins.match(line)
        if found and found.group(1) not in skipped and found.group(1) not in seen:
            name = found.group(1)
            seen.add(name)
            places.setdefault(name, []).append(str(path))
            if not above.startswith('--'):
                bare.append(f'{path}: {name}')
        above = line
failed = False
for name, where in sorted(places.items()):
    if len(where) > 1:
        print(f'repository: the word {name} of specs is defined twice: {", ".join(where)}')
        failed = True
for each in bare:
    print(f'repository: no line of plain words above {each}')
    failed = True
sys.exit(failed)
END
exit "$failed"
