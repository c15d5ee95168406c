# What each benchmark begins with: the program as the gate built it, and a folder that goes when the benchmark ends.
set -eu
cd "$(dirname "${BASH_SOURCE[0]}")/.."
program=$PWD/crates/jumpweft/out/jumpweft
[ -x "$program" ] || { echo "bench: no $program: run rt ci first" >&2; exit 2; }
folder=$(mktemp -d)
trap 'rm -rf "$folder"' EXIT
