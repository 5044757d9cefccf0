# Read by the scripts of this folder: the built program, and a folder that is removed at the end.
top=$(cd "$(dirname "$0")/.." && pwd)
program=$top/crates/browse_program/out/browse_program
[ -x "$program" ] || { echo "bench: build the program first: ./build" >&2; exit 1; }
folder=$(mktemp -d)
trap 'rm -rf "$folder"' EXIT
