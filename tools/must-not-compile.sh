#!/bin/sh
# Each edit crates/NAME/must-not-compile/*.edit, applied to the program NAME, has to be refused because a moved value is used
# again; the program as it stands has to run in the same way. `rt try` reads the sources alone: nothing is proved here, and
# nothing need be proved or built before. Prints a line for each edit, and ends with 1 if one compiles or is refused for
# another reason.
set -u
root=$(cd "$(dirname "$0")/.." && pwd)
copy=$(mktemp -d) || exit 2
trap 'rm -rf "$copy"' EXIT
cp "$root/crates.txt" "$copy/"
(cd "$root" && tar -cf - --exclude=out crates) | tar -xf - -C "$copy"

# Compiles the program NAME of the copy with all that it depends on, from the sources, and runs it before any proof.
# Prints what is said of the sources, not what the program prints.
compiled() { # NAME
    (cd "$copy/crates/$1" && rt try </dev/null 2>&1 >/dev/null)
}

# Prints FILE with the one place of the edit's old text replaced by the new text.
edited() { # EDIT FILE
    OLD=$(sed -n 's/^old: //p' "$1") NEW=$(sed -n 's/^new: //p' "$1") awk '
        { text = text $0 "\n" }
        END {
            old = ENVIRON["OLD"]
            at = index(text, old)
            if (old == "" || !at || index(substr(text, at + 1), old)) exit 3
            printf "%s%s%s", substr(text, 1, at - 1), ENVIRON["NEW"], substr(text, at + length(old))
        }' "$2"
}

# Tries one edit, and says what came of it.
try_edit() { # EDIT
    name=$(basename "$(dirname "$(dirname "$1")")")
    label=$name/$(basename "$1" .edit)
    file=crates/$name/$(sed -n 's/^file: *//p' "$1")
    if ! edited "$1" "$root/$file" >"$copy/$file"; then
        echo "$label: BAD EDIT: its old text does not stand exactly once in $file"
        return 1
    fi
    said=$(compiled "$name")
    cp "$root/$file" "$copy/$file"
    if [ "$(printf '%s\n' "$said" | grep -o 'error\[[a-z0-9-]*\]' | sort -u)" != 'error[borrow-e0382]' ]; then
        echo "$label: COMPILES, OR IS REFUSED FOR ANOTHER REASON: $said"
        return 1
    fi
    echo "$label: does not compile, as it must not:$(printf '%s\n' "$said" | sed -n 's/.*error\[borrow-e0382\]:\([^:]*:[^:]*\):.*/\1/p' | head -1)"
}

bad=0
for folder in "$root"/crates/*/must-not-compile; do
    name=$(basename "$(dirname "$folder")")
    if said=$(compiled "$name"); then
        echo "$name: compiles as it stands"
    else
        echo "$name: DOES NOT COMPILE AS IT STANDS: $said"
        bad=1
    fi
    for edit in "$folder"/*.edit; do
        try_edit "$edit" || bad=1
    done
done
exit $bad
