"""Looks up each code word of the documents; see words.sh.

    words.py
"""
import pathlib
import re
import sys

# where a code word may stand: what is built, what is run, what is kept beside
PLACES = ("crates/*/src", "crates/*/specs", "crates/*/proofs", "crates.txt", "scripts", "bench", "consumers", "examples", "checks")
# not a place: the list below would vouch for itself
OWN = {"words.py", "words.sh"}
SUFFIXES = {".pyc"}

# words that stand nowhere there, with the reason for each
ALLOWED = {
    "BytesMut": "the kit's type, which wasn't chosen",
    "retain": "the kit's call, which isn't used",
    "binlog_checksum": "MySQL's variable",
    "max_binlog_size": "MySQL's variable",
}

WORD = r"[A-Za-z_][A-Za-z0-9_]*"
TOLD = re.compile(rf"(?P<path>{WORD}(?:::{WORD})+)|(?P<call>{WORD}(?:::{WORD})*)\(\)|(?P<word>{WORD})")


def words_of(told):
    """The words of a text in backticks that looks like one identifier, a path or a call; none if it doesn't."""
    found = TOLD.fullmatch(told)
    if found is None:
        return []
    if found["word"] and not re.search("[A-Z_]", told):
        return []
    return re.findall(WORD, told)


def told_in(document):
    """Each text in single backticks outside of blocks, with its line's number."""
    inside = False
    for number, line in enumerate(document.read_text().splitlines(), 1):
        if line.lstrip().startswith("```"):
            inside = not inside
        elif not inside:
            for told in re.findall(r"(?<!`)`([^`]+)`(?!`)", line):
                yield number, told


def there():
    """All words of the places."""
    found = set()
    for place in PLACES:
        for root in pathlib.Path().glob(place):
            for path in [root, *root.rglob("*")]:
                if path.is_file() and path.name not in OWN and path.suffix not in SUFFIXES:
                    found.update(re.findall(WORD, path.read_text(errors="ignore")))
    return found


def main():
    known = there()
    documents = [pathlib.Path("README.md"), *sorted(pathlib.Path("docs").glob("*.md"))]
    wrong, used, count = 0, set(), 0
    for document in documents:
        for number, told in told_in(document):
            for word in words_of(told):
                count += 1
                if word in ALLOWED:
                    used.add(word)
                elif word not in known:
                    wrong += 1
                    print(f"words: {document}:{number}: `{told}`: {word} stands nowhere in the repository")
    for word in sorted(set(ALLOWED) - used):
        wrong += 1
        print(f"words: {word} is allowed, and no document says it")
    for word in sorted(set(ALLOWED) & known):
        wrong += 1
        print(f"words: {word} is allowed, and needn't be: it is there")
    if not wrong:
        print(f"words: {count} code words of {len(documents)} documents are there")
    return 1 if wrong else 0


if __name__ == "__main__":
    sys.exit(main())
