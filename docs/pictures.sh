#!/usr/bin/env bash
# Draws the pictures of docs/READING-ORDER.md: trees from what the scripts of docs/runs leave, by the peer; the fourteen points from their definitions.
#   docs/pictures.sh [PEER]           draws them anew
#   docs/pictures.sh --check [PEER]   fails where one is not what would be drawn
# A text picture is the fenced block behind a line <!-- drawn: tree RUN --> or <!-- drawn: points -->; docs/points.svg is a file of its own.
# PEER is the peer's program; without it, it is built.
set -euo pipefail
cd "$(dirname "${BASH_SOURCE[0]}")/.."
check=
if [ "${1:-}" = --check ]; then check=1; shift; fi
[ $# -le 1 ] || { echo "usage: docs/pictures.sh [--check] [PEER]" >&2; exit 2; }
room=$(mktemp -d)
trap 'rm -rf "$room"' EXIT
peer=${1:-$room/peer}
[ -x "$peer" ] || rustc -O --edition 2021 peer/src/main.rs -o "$peer"

drawn() {
    case $1 in
    tree) "$peer" draw < "docs/runs/$2.script" ;;
    points) awk -f docs/points.awk ;;
    *) echo "docs/pictures.sh: no picture is called $1" >&2; return 1 ;;
    esac
}

while IFS= read -r line; do
    printf '%s\n' "$line"
    if [[ $line =~ ^'<!-- drawn: '([a-z]+)' '?([a-z-]*)' -->'$ ]]; then
        echo '```'
        drawn "${BASH_REMATCH[1]}" "${BASH_REMATCH[2]}"
        echo '```'
        read -r line
        while IFS= read -r line && [ "$line" != '```' ]; do :; done
    fi
done < docs/READING-ORDER.md > "$room/READING-ORDER.md"
awk -v svg=1 -f docs/points.awk > "$room/points.svg"

for picture in READING-ORDER.md points.svg; do
    if [ -z "$check" ]; then
        cat "$room/$picture" > "docs/$picture"
    elif ! diff "docs/$picture" "$room/$picture"; then
        echo "docs/pictures.sh: docs/$picture is not what is drawn" >&2
        exit 1
    fi
done
