#!/bin/sh
# Shows that misuse does not compile: each crates/NAME/no-compile/*.edit, tried on a copy, must be refused by the compiler
# with the error that its 'error:' line names, the first words of its message included, and with no other. An edit is as
# in must-fail/: 'file:', 'old:' and 'new:' lines. Only the compiler runs, from the sources, and nothing is proved here.
set -u
root=$(cd "$(dirname "$0")/.." && pwd)
work=$(mktemp -d) || exit 2
trap 'rm -rf "$work"' EXIT
mkdir "$work/crates" || exit 2
cp "$root/crates.txt" "$work/" || exit 2
(cd "$root/crates" && find . -path ./\*/out -prune -o -type f -print | tar cf - -T -) | tar xf - -C "$work/crates" || exit 2
good=0 bad=0

# A program that does nothing stands above the crate: `rt try` compiles it and all below it from the sources.
above() { # NAME
    mkdir -p "$work/crates/nothing_over_$1/src"
    printf '%s\n' '#![tactic(auto)]' '' 'fn main() {}' >"$work/crates/nothing_over_$1/src/main.rt"
    echo "nothing_over_$1: $1 $(deps_of "$1")" >>"$work/crates.txt"
}

deps_of() { # NAME
    sed -n "s/#.*//; s/^ *$1 *: *//p" "$work/crates.txt"
}

# Compiles a crate of the copy, and every crate of the repository below it; what is said goes into $work/log.
compiles() { # NAME
    (cd "$work/crates/nothing_over_$1" && rt try) >"$work/log" 2>&1
}

said() {
    sed "s#$work/##g" "$work/log" | head -n 5
}

# Applies an edit to $file, whose text is kept in $work/kept.
apply() { # EDIT
    OLD=$(sed -n 's/^old: //p' "$1") NEW=$(sed -n 's/^new: //p' "$1") awk '
        { text = text $0 "\n" }
        END { old = ENVIRON["OLD"]; at = index(text, old)
              if (old == "" || !at || index(substr(text, at + length(old)), old)) exit 3
              printf "%s%s%s", substr(text, 1, at - 1), ENVIRON["NEW"], substr(text, at + length(old)) }' "$work/kept" >"$file"
}

# Whether the log has the error WANT, as '[code]: words', and none of another code.
only() { # WANT
    [ "$(grep -o 'error\[[a-z0-9-]*\]' "$work/log" | sort -u)" = "error${1%%]*}]" ] && grep -qF "error$1" "$work/log"
}

try() { # NAME EDIT
    label="no-compile $1/$(basename "$2" .edit)" want=$(sed -n 's/^error: //p' "$2")
    file=$work/crates/$1/$(sed -n 's/^file: //p' "$2")
    cp "$file" "$work/kept" || { echo "$label: BAD EDIT: no such file"; return 1; }
    if ! apply "$2"; then
        echo "$label: BAD EDIT: its 'old:' text does not stand once in that file"; status=1
    elif compiles "$1"; then
        echo "$label: NOT REFUSED: it compiles"; status=1
    elif only "$want"; then
        echo "$label: refused by the compiler: error$want"; status=0
    else
        echo "$label: NOT REFUSED with error$want alone"; said; status=1
    fi
    cp "$work/kept" "$file"
    return $status
}

for dir in "$root"/crates/*/no-compile; do
    [ -d "$dir" ] || continue
    crate=$(basename "$(dirname "$dir")")
    above "$crate"
    if ! compiles "$crate"; then
        echo "no-compile $crate: it does not compile as it stands"; said
        bad=$((bad + 1))
        continue
    fi
    echo "no-compile $crate: compiles as it stands"
    for edit in "$dir"/*.edit; do
        [ -f "$edit" ] || continue
        if try "$crate" "$edit"; then good=$((good + 1)); else bad=$((bad + 1)); fi
    done
done
echo "no-compile: $good refused, $bad not"
[ "$bad" -eq 0 ] && [ "$good" -gt 0 ]
