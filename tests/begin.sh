# For tests to read in first: they run in the top folder, have a folder of their own, and count what they say.
set -u
cd "$(dirname "$0")/.." || exit 1
. tests/says.sh
. tools/machine.sh
folder=$(mktemp -d)
trap 'rm -rf "$folder"' EXIT

# needs TARGET..: what make has to build before, or the test has failed
needs() { make -s "$@" || { echo '0 passed, 1 failed'; exit 1; }; }
