#!/usr/bin/env bash
# One wrong answer for each public helper (docs/helpers.txt), tried on a copy of the repository: each must be refused for its own sake. It prints the table of docs/OUTCOMES.md.
# It is no part of the gate: `rt check` is no verdict, but it proves no more than the verdict does.
#   docs/helpers.sh [CRATE..]     the rounds of these crates only
set -euo pipefail
export LC_ALL=C.UTF-8
cd "$(dirname "$0")/.."
top=$PWD room=$(mktemp -d) survived=0
trap 'rm -rf "$room"' EXIT
cp crates.txt "$room/"
for crate in crates/*; do
    mkdir -p "$room/$crate"
    for part in src specs proofs; do [ ! -d "$crate/$part" ] || cp -r "$crate/$part" "$room/$crate/"; done
done

source_of() { # FUNCTION: its file below crates/, lib.rt or the module's; a method's path names the type before it
    local rest=${1#*::}
    rest=${rest%%::*}
    if [ -f "$room/crates/${1%%::*}/src/$rest.rt" ]; then echo "${1%%::*}/src/$rest.rt"; else echo "${1%%::*}/src/lib.rt"; fi
}

change() { # FUNCTION OLD NEW
    local file text old new
    file=$room/crates/$(source_of "$1")
    text=$(< "$file") old=$(printf '%b' "$2") new=$(printf '%b' "$3")
    case $text in *"$old"*"$old"*) echo "helpers.sh: a text of $1 stands twice" >&2; exit 2 ;; *"$old"*) ;; *) echo "helpers.sh: a text of $1 is not there" >&2; exit 2 ;; esac
    printf '%s\n' "${text/"$old"/"$new"}" > "$file"
}

lines_of() { # FUNCTION FILE: the first and the last, from the attributes above it on
    awk -f "$top/docs/functions.awk" "$2" | awk -v name="${1##*::}" -v path="$1" '
        $2 == name && ($1 == "-" ? path ~ "(^|::)[a-z_]*::" name "$" : path ~ "::" $1 "::" name "$") { print $3, $4; exit }'
}

# The first goal of a function that the check could not prove by itself: its line stands in the function.
in_source() { # FUNCTION LOG
    local file from to
    file=$(source_of "$1") file=${file#*/}
    read -r from to < <(lines_of "$1" "$room/crates/${1%%::*}/$file")
    awk -v head="note: $file:" -v from="$from" -v to="$to" 'index($0, head) == 1 { split(substr($0, length(head) + 1), at, ":"); if (at[1] >= from && at[1] <= to) { print; exit } }' "$2"
}

# What the check says of a function that is refused for its own sake.
said() { # FUNCTION LOG
    local line path=${1#*::} folder
    folder=/${path//:://}
    folder=${folder%/*}/'\+?'${folder##*/} # (that of a function that calls itself begins with +)
    line=$(grep -m 1 "^fn $1: " "$2") || true
    case $line in
    *': proved') echo 'NOT REFUSED' ;;
    *'it calls'*) echo 'NOT TRIED: a callee is refused' ;;
    *': not proved'* | *': no proof'*)
        line=$(grep -E "^(\./)?proofs$folder/(Answers|Invariants|Proof)\.antt:[0-9:]+ error: " "$2" | sed 1q) || true
        # (an answer to a goal that has another name now shows nothing)
        case $line in *'that can be named'*) echo 'NOT TRIED: a goal has another name'; return ;; esac
        [ -n "$line" ] || line=$(in_source "$1" "$2")
        line=$(sed -E -e 's/^note: //' -e 's|^\./||' -e 's/: error: /: /' -e 's/Rattle\.[a-z]+\.(specs|proofs)\.//g' -e 's/(Prim|mathlib|lib)\.([A-Za-z]+\.)+//g' -e 's/`//g' -e 's/\|/\\|/g' <<< "$line")
        [ "${#line}" -le 130 ] || line="${line:0:130}.."
        [ -n "$line" ] || line='NOT TRIED: the check does not say why it is refused'
        echo "$line" ;;
    *) echo 'NOT TRIED: the check says nothing of it' ;;
    esac
}

play() { # the round in functions, olds and news
    local crate=${functions[0]%%::*} i answer
    for i in "${!functions[@]}"; do change "${functions[i]}" "${olds[i]}" "${news[i]}"; done
    (cd "$room/crates/$crate" && rt check > "$room/log" 2>&1) || true
    for i in "${!functions[@]}"; do
        answer=$(said "${functions[i]}" "$room/log")
        case $answer in NOT*) survived=1 ;; esac
        echo "| ${functions[i]} | \`$(short "${olds[i]}")\` | \`$(short "${news[i]}")\` | $answer |"
    done
    rm -rf "$room/crates/$crate/src" && cp -r "$top/crates/$crate/src" "$room/crates/$crate/src"
}

short() { printf '%b' "$1" | tr '\n' ' ' | sed -E 's/ +/ /g; s/^ //; s/\|/\\|/g'; }

end_round() { [ ${#functions[@]} = 0 ] || case " ${wanted:-${functions[0]%%::*}} " in *" ${functions[0]%%::*} "*) play ;; esac; functions=() olds=() news=(); }

wanted="$*" functions=() olds=() news=()
echo '| Helper | Instead of | Tried | Refused |'
echo '|---|---|---|---|'
while IFS=$'\t' read -r function old new; do
    case $function in
    '#'* | '') ;;
    round) end_round ;;
    *) functions+=("$function") olds+=("$old") news+=("$new") ;;
    esac
done < docs/helpers.txt
end_round
exit "$survived"
