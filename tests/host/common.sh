# For the subjects beside it to read in: the program, which is build/scanboot or what the first word names, a folder of its own to work in,
# and what is asked of the last run. A subject says what it needs by `inputs`, and ends by `end`.
set -u
tests=$(readlink -f "$(dirname "$0")/..")
cd "$tests/.." || exit 1
[ $# = 1 ] || make -s -f build.mk host || { echo '0 passed, 1 failed'; exit 1; }
scanboot=$(readlink -f "${1:-build/scanboot}")
samples=$PWD/second/samples
. tests/says.sh
folder=$(mktemp -d)
trap 'rm -rf "$folder"' EXIT
cd "$folder" || exit 1
umask 022
: >err

# inputs NAME..: these files, made by inputs.py
inputs() { python3 "$tests/host/inputs.py" "$@" || { echo '0 passed, 1 failed'; exit 1; }; }

# run WORDS..: the program with these words; out, err and status are kept
run() {
    "$scanboot" "$@" >out 2>err
    status=$?
}

# Of the last run: its status, and that it wrote exactly these lines
ended() { [ "$status" = "$1" ]; }
wrote() { printf '%s\n' "$@" | cmp -s - out; }
wrote_nothing() { [ ! -s out ]; }
told() { printf '%s\n' "$@" | cmp -s - err; }
told_nothing() { [ ! -s err ]; }
told_of() { [ "$(wc -l <err)" = "${2:-1}" ] && grep -q -F -e "$1" err; }
told_first() { [ "$(wc -l <err)" = 1 ] && grep -q "^$1" err; }
same() { cmp -s "$1" "$2"; }
absent() { [ ! -e "$1" ]; }
# no file was left beside another: only these names are in the folder
only() { [ "$(ls -A "$1" | tr '\n' ' ')" = "${2:+$2 }" ]; }
# misused WHAT WORDS..: exactly this is told of these words, and where help is found; nothing is printed, and nothing written into the folder `refused`
misused() {
    what=$1
    shift
    run "$@"
    says "$*: status" ended 2
    says "$*: told" told "scanboot: $what" "scanboot: try 'scanboot $1 --help'"
    says "$*: nothing written" [ "$(cat out)$(ls refused)" = '' ]
}
# a question to checks.py
ask() { python3 "$tests/host/checks.py" "$@"; }
# look SVG QUESTION.. [, QUESTION..]..: questions about a picture to picture.py
look() { python3 "$tests/host/picture.py" "$@"; }
