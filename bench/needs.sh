# For the other scripts, which read it first: what they need, told by name where it is missing.
name=${0##*/}

# need FILE WHAT: ends with status 2 where the file isn't there, and says what it is.
need() {
    if [ ! -e "$1" ]; then
        echo "$name: no $1: $2" >&2
        exit 2
    fi
}

if ! command -v python3 > /dev/null; then
    echo "$name: no python3, which times the runs" >&2
    exit 2
fi
