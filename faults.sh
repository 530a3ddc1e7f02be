#!/usr/bin/env bash
# What the proofs of demand 3 and of the runs see: faults put into the definitions of the points, and useless builds put into
# code and definitions together, each on a copy. It prints Markdown.
#   ./faults.sh                    every fault of faults/definitions, and what the peer makes of it   (docs/FAULTS.md)
#   ./faults.sh useless            every build of faults/useless                                      (docs/USELESS.md)
#   ./faults.sh [useless] NAME ..  some of them
# It is no part of the gate. It fails if a fault is not refused, or the peer finds no harm in it. What checks on this machine have kept is not proved again.
set -euo pipefail
cd "$(dirname "$0")"
for tool in rt git rustc; do command -v $tool > /dev/null || { echo "faults: $tool is missing" >&2; exit 1; }; done
home=$PWD
kind=definitions
if [ "${1:-}" = useless ]; then kind=useless; shift; fi
mapfile -t names < <(if [ $# -gt 0 ]; then printf '%s\n' "$@"; else basename -s .patch faults/$kind/*.patch; fi)
room=$(cd "$(mktemp -d)" && pwd -P)
trap 'rm -rf "$room"' EXIT

# The crates with what each stands on. Demand 3 is proved in link and stated in the crates above it.
declare -A deps
order=()
while IFS=: read -r crate needs; do deps[$crate]=$needs; order+=("$crate"); done < <(sed -e 's/#.*//' -e '/^[[:space:]]*$/d' crates.txt)
stands_on() { # CRATE BASE: whether CRATE is BASE or stands on it
    [ "$1" != "$2" ] || return 0
    local next
    for next in ${deps[$1]:-}; do if stands_on "$next" "$2"; then return 0; fi; done
    return 1
}
tops=(runs)
for crate in "${order[@]}"; do if stands_on "$crate" link; then tops+=("$crate"); fi; done
is_needed() { local top; for top in "${tops[@]}"; do if stands_on "$top" "$1"; then return 0; fi; done; return 1; }
# The crates whose definitions an edit changes; those that it can reach; and of these, those below the ones that are asked.
edited=(draws help flag finish mark points)
is_reached() { local base; is_needed "$1" || return 1; for base in "${edited[@]}"; do if stands_on "$1" "$base"; then return 0; fi; done; return 1; }
is_between() { is_reached "$1" && ! stands_on "$1" link && [ "$1" != runs ]; }

copy() { # FROM TO
    local part
    for crate in "${order[@]}"; do
        is_needed "$crate" || continue
        mkdir -p "$2/crates/$crate"
        for part in src specs proofs; do if [ -d "$1/crates/$crate/$part" ]; then cp -r "$1/crates/$crate/$part" "$2/crates/$crate/"; fi; done
        echo "$crate:${deps[$crate]}" >> "$2/crates.txt"
    done
}

# Sets the code of a crate aside, functions with the attributes before them; its types and definitions stay, and what a type's ghost field names.
without_code() { # FOLDER CRATE
    local file
    find "$1/crates/$2/src" -name '*.rt' | while read -r file; do
        awk '
            /^#\[/ { open = 1 }
            open { held = held $0 "\n"; if (/\]$/) open = 0; next }
            /^(pub )?fn / { skip = 1; held = "" }
            skip { if (/^}/) skip = 0; next }
            /^ghost use / && !/Prelude/ { next }
            { printf "%s", held; held = ""; print }' "$file" > "$room/cut"
        cp "$room/cut" "$file"
    done
    if [ -d "$1/crates/$2/proofs" ]; then find "$1/crates/$2/proofs" -mindepth 1 -maxdepth 1 -type d -exec rm -r {} +; fi
}

# The laws of a crate that some files cite, under the name that the crate itself or another has for them, in a proof or in an attribute of the code.
laws_in() { # CRATE FILE-OR-FOLDER ..
    local crate=$1
    shift
    { grep -rHoE "(Rattle\.$crate\.proofs\.|\b($crate|crate)::proofs::)[A-Z][A-Za-z]*" "$@" || true; } |
        awk -v own="/crates/$crate/src/" '!/:crate::proofs::/ || index($0, own) { sub(/.*[.:]/, ""); print }' | sort -u
}

# Sets the laws of a crate aside that neither its functions' proofs nor the crates above it cite, but for its computed examples.
without_uncited() { # FOLDER CRATE
    local proofs="$1/crates/$2/proofs" cited='' more law
    [ -d "$proofs" ] || return 0
    mapfile -t citing < <(find "$1/crates" -path "$proofs/*.antt" ! -path "$proofs/*/*" -o \( -name '*.antt' -o -name '*.rt' \) -print)
    more=$(laws_in "$2" "${citing[@]}")
    while [ "$more" != "$cited" ]; do
        cited=$more
        for law in $cited; do if [ -f "$proofs/$law.antt" ]; then more+=$'\n'$(laws_in "$2" "$proofs/$law.antt"); fi; done
        more=$(sed '/^$/d' <<< "$more" | sort -u)
    done
    for law in $(basename -s .antt "$proofs"/*.antt); do
        if [ "$law" = Lib ] || [ "$law" = Examples ] || grep -qx "$law" <<< "$cited"; then continue; fi
        sed -i "/^pub mod $law\$/d" "$proofs/Lib.antt"
        rm "$proofs/$law.antt"
    done
}

# One lemma for each line of the table of runs, in place of one for all, so that a line can be named.
lines_apart() { # FOLDER
    local holds="$1/crates/runs/proofs/Holds.antt" unfolded i=0 letter
    unfolded=$(grep '^unfolding ' "$holds")
    sed -i -e '/^pub runs_hold/,$d' -e 's/^use lib\.Count/use lib.ListN.{take, drop}\n&/' "$holds"
    for letter in a b c d e f g h i j; do
        printf 'pub run_%s : map measured (take 1 (drop %s table)) ≡ map expected (take 1 (drop %s table))\n%s\nrun_%s = refl\n\n' $letter $i $i "$unfolded" $letter
        i=$((i + 1))
    done >> "$holds"
}

# Proves what demand 3 and the runs stand on; says which crates are refused, and where. Counts them.
prove() { # FOLDER
    local line
    refusals=0
    (cd "$1" && rt all check) > "$1/said" 2>&1 || true
    grep -qx '== summary' "$1/said" || { echo "faults: rt all check did not come to its summary:" >&2; tail -n 20 "$1/said" >&2; exit 1; }
    for crate in "${order[@]}"; do
        is_needed "$crate" || continue
        line=$(sed -n '/^== summary$/,$p' "$1/said" | sed -n "s/^$crate: //p")
        case $line in
        ok) if is_reached "$crate"; then echo "- \`$crate\` is proved."; fi ;;
        'not run, since '*) echo "- \`$crate\` is not tried: its dependency $(sed 's/^not run, since \(.*\) failed$/\1/' <<< "$line") is not proved." ;;
        'failed (1)') refused "$1" "$crate"; refusals=$((refusals + 1)) ;;
        *) echo "faults: of $crate nothing is known: $line" >&2; exit 1 ;;
        esac
    done
}

# The lemmas that break, and those that fall with them.
refused() { # FOLDER CRATE
    local log="$room/log" errors="$room/errors" apart="$room/apart" fallen clauses others file line lemma
    awk -v name="== $2" '/^== / { on = $0 == name; next } on' "$1/said" > "$log"
    sed -nE "s#^(\./)?((src|specs|proofs)/[^:]*):([0-9]+):[0-9]+: error: \`([^\`]*)\`: .*#crates/$2/\2 \4 \5#p" "$log" > "$errors"
    if [ ! -s "$errors" ]; then
        echo "- \`$2\` is refused:"
        grep -m 1 'error' "$log" | sed 's/^/  /'
        return
    fi
    read -r file line lemma < "$errors"
    echo "- \`$2\` is refused: \`$lemma\`, $file line $line, breaks."
    others=$(awk 'NR == 1 { said[$3] } NR > 1 && !($3 in said) { said[$3]; printf "%s`%s`", sep, $3; sep = ", " }' "$errors")
    if [ -n "$others" ]; then echo "  So do: $others."; fi
    # One line for each file and lemma that others of the file stand on: how many fall, the file, and their names.
    sed -nE "s#^(\./)?((src|specs|proofs)/[^:]*):[0-9]+:[0-9]+: error: ([0-9]+) declarations? that depends? on .* not checked: (.*)#\4 crates/$2/\2 \5#p" "$log" | sed -E 's/ \(via [^)]*\)//g; s/,//g' > "$apart"
    fallen=$(awk '{ n += $1 } END { print n + 0 }' "$apart")
    clauses=$(while read -r line file others; do
        case $file in */proofs/Clauses.antt | */proofs/Answers.antt | */claim/*) for lemma in $others; do if grep -q "pub $lemma " "$1/$file"; then echo "\`$lemma\`"; fi; done ;; esac
    done < "$apart" | paste -sd ' ' | sed 's/ /, /g')
    if [ "$fallen" != 0 ]; then echo "  $fallen lemmas that stand on what broke fall with it${clauses:+, these statements of demand 3 among them: $clauses}."; fi
}

meaning() { sed '/^diff --git/,$d' "$home/faults/$kind/$1.patch"; }
edit() { sed -n '/^diff --git/,$p' "$home/faults/$kind/$1.patch"; }
definition_edit() { edit "$1" | awk '/^diff --git/ { on = / b\/crates\/[a-z]*\/specs\// } on && /^[-+ ]/ && !/^(---|\+\+\+) / && !/^.use / { print }'; }

about_definitions() {
    cat << 'END'
# Faults in the definitions

`./faults.sh` printed this page. Each fault is one edit of the definition of a point, made on a copy. The code that would have to follow it is set
aside, with the laws that only its proofs cite: what is left of those crates are their definitions, and demand 3 is proved over definitions.
Without a fault all of it is proved. With one, the first lemma that breaks is named, and what falls with it; the runs (a) to (j) are tried too.

A broken proof alone would not show that the fault does harm. So each fault is also put into the peer, which looks for a list of events that comes
to harm and makes it short: a number lost, a job done twice, or a task refused 3 for ever. It is shown as a script of the bench program and then
told: a line for each step that changes a shared word, with the point at which it is, and for each place where a process is left while others go on.
The same events without the fault do no harm. So none of the five faults is harmless. The runs, which are nearly all of one process, see one of them.

END
}

unseen=0
base=$room/base
copy "$home" "$base"
lines_apart "$base"
if [ $kind = definitions ]; then
    for crate in "${order[@]}"; do if is_between "$crate"; then without_code "$base" "$crate"; without_uncited "$base" "$crate"; fi; done
    rustc -O --edition 2021 peer/src/main.rs -o "$room/peer"
    if [ $# = 0 ]; then about_definitions; fi
    echo "## No fault"
    echo
    prove "$base"
    echo
    if [ $refusals != 0 ]; then echo "faults: refused without a fault" >&2; exit 1; fi
fi

for name in "${names[@]}"; do
    copy "$base" "$room/$name"
    (cd "$room/$name" && git apply "$home/faults/$kind/$name.patch")
    if [ $kind = useless ]; then
        mapfile -t edited < <(edit "$name" | sed -n 's|^+++ b/crates/\([a-z]*\)/specs/.*|\1|p' | sort -u)
        for crate in "${order[@]}"; do if is_between "$crate"; then without_uncited "$room/$name" "$crate"; fi; done
    fi
    echo "## $name"
    echo
    meaning "$name"
    echo
    echo '```diff'
    definition_edit "$name"
    echo '```'
    echo
    prove "$room/$name"
    echo
    if [ $refusals = 0 ]; then echo "faults: $name is not refused" >&2; unseen=1; fi
    if [ $kind = definitions ]; then
        echo '```'
        "$room/peer" fault "$name" 1 5000 || { echo "faults: the peer finds no harm in $name" >&2; unseen=1; }
        echo '```'
        echo
    fi
    rm -rf "${room:?}/$name"
done
exit $unseen
