#!/usr/bin/env bash
# Every must-fail edit, with the sentence that it breaks and what rt said when it refused it, as the table of docs/OUTCOMES.md.
#   rt must-fail | docs/edits.sh      or of what rt ci printed: docs/edits.sh < LOG
# It fails if an edit is not refused there, or only for a name that it took away.
set -euo pipefail
export LC_ALL=C.UTF-8
cd "$(dirname "$0")/.."
lost=0
said=$(cat)

# What is not proved then: a function, by the folder of its proof or by the line of its source; else a law.
not_proved() { # CRATE ERROR
    local path=${2#note: } file line
    path=${path#./}
    case $path in
    proofs/*/Answers.antt:* | proofs/*/Invariants.antt:* | proofs/*/Proof.antt:*)
        path=${path%%.antt:*} path=${path%/*} path=${path#proofs/} path=${path//+/}
        printf '`%s::%s`' "$1" "${path//\//::}" ;;
    src/*)
        file=${path%%:*} line=${path#*:} line=${line%%:*}
        path=${file#src/} path=${path%.rt} path=${path//\//::}
        printf '`%s::%s%s`' "$1" "$(case $path in lib | main) ;; *) echo "$path::" ;; esac)" \
            "$(awk -f docs/functions.awk "crates/$1/$file" | awk -v at="$line" '$3 <= at && at <= $4 { print ($1 == "-" ? "" : $1 "::") $2; exit }')" ;;
    *) echo 'a law' ;;
    esac
}

shortened() { sed -E -e 's/^note: //' -e 's|^\./||' -e 's/: error: /: /' -e 's/Rattle\.[a-z]+\.(specs|proofs)\.//g' -e 's/(Prim|mathlib|lib)\.([A-Za-z]+\.)+//g' -e 's/`//g' -e 's/\|/\\|/g'; }

echo '| Edit | What it breaks | Not proved then | First error |'
echo '|---|---|---|---|'
for edit in crates/*/must-fail/*.edit; do
    crate=${edit#crates/} crate=${crate%%/*} label=$(basename "$edit" .edit)
    error=$(sed -n "s|^rt: must-fail $crate/$label\.edit: refused, as it must be: ||p" <<< "$said" | head -n 1)
    [ -n "$error" ] || { echo "edits.sh: nothing says that $crate/$label is refused for what it breaks" >&2; lost=1; continue; }
    # (rt prints no more than 160 characters of it)
    cut=$([ "${#error}" -lt 160 ] || echo ..)
    echo "| $crate/$label | $(sed -n 's/^# //p' "$edit" | head -n 1) | $(not_proved "$crate" "$error") | $(shortened <<< "$error")$cut |"
done
exit "$lost"
