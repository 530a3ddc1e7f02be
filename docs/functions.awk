# Each function of a .rt file that has a body: its type, its name, and its first and last line, from the attributes above it on.
# The type is as the check names it: `Header` for `impl Header`, `PendingFromU32` for `impl From<u32> for Pending`, `Pass` for `trait Pass`, and - for a free function.
function big(word) { return toupper(substr(word, 1, 1)) substr(word, 2) }
/^(impl(<[^>]*>)?|(pub )?trait) / {
    type = $0; sub(/^(pub )?(impl(<[^>]*>)?|trait) /, "", type); sub(/ \{$/, "", type)
    if (match(type, / for /)) { of = substr(type, RSTART + 5); sub(/<.*/, "", of); by = substr(type, 1, RSTART - 1); split(by, part, /[<>]/); type = big(of) part[1] big(part[2]) }
    sub(/<.*/, "", type)
}
/^ *#\[/ { if (!held) held = NR; next }
match($0, /^ *(pub |final )*fn [A-Za-z0-9_]+/) {
    name = substr($0, RSTART, RLENGTH); sub(/.* /, "", name)
    from = held ? held : NR; of_type = type == "" ? "-" : type; end = /^ / ? "^    }$" : "^}$"
    if (/\}$/) { print of_type, name, from, NR; from = 0 }
}
{ held = 0 }
from && $0 ~ end { print of_type, name, from, NR; from = 0 }
/^}/ { type = "" }
