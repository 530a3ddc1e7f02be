#!/usr/bin/env bash
# The bench: reads a script from a file, or from standard input, and prints what its lines answer.
#   bench.sh [FILE]
#   bench.sh --command     only prints the command that runs it, one word to a line
set -euo pipefail
top=$(cd "$(dirname "${BASH_SOURCE[0]}")" && pwd -P)
[ $# -le 1 ] || { echo "usage: bench.sh [FILE]" >&2; exit 2; }
program=$top/crates/bench/out/bench
# What rt makes lies in folders out/, which are no sources.
if [ ! -x "$program" ] || [ -n "$(find "$top/crates" "$top/crates.txt" -name out -prune -o -type f -newer "$program" -print -quit)" ]; then
    command -v rt > /dev/null || { echo "bench.sh: the Rattle kit's command rt is missing" >&2; exit 1; }
    echo "bench.sh: proving and building the bench, where a source is newer than it" >&2
    # rt runs what it has built, here on no input; what has not changed it does not build again.
    said=$(cd "$top/crates/bench" && rt run < /dev/null 2>&1) || { printf '%s\n' "$said" >&2; exit 1; }
    touch "$program"
fi
case ${1:-} in
--command) printf '%s\n' "$program" ;;
'') exec "$program" ;;
*) exec "$program" < "$1" ;;
esac
