#!/usr/bin/env bash
# Puts standard input between the marks NAME and /NAME of docs/OUTCOMES.md, in place of what stands there.
#   docs/public-check | sed 's/^/    /' | docs/splice.sh public
#   rt must-fail | docs/edits.sh | docs/splice.sh edits          docs/helpers.sh | docs/splice.sh helpers
set -euo pipefail
page=$(dirname "$0")/OUTCOMES.md
[ $# = 1 ] && grep -qx "<!-- $1 -->" "$page" && grep -qx "<!-- /$1 -->" "$page" || { echo "splice.sh: no marks of '${1:-}' in OUTCOMES.md" >&2; exit 2; }
part=$(cat)
PART=$part awk -v from="<!-- $1 -->" -v to="<!-- /$1 -->" '
    $0 == to { skip = 0 }
    !skip { print }
    $0 == from { print ""; print ENVIRON["PART"]; print ""; skip = 1 }' "$page" > "$page.new"
mv "$page.new" "$page"
