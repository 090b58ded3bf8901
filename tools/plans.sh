#!/usr/bin/env bash
# The example plans: each plans/NAME.txt has a word to a line, in hexadecimal, with comments; plans/NAME.plan has the bytes of
# these words, and plans/NAME.out what they print.
#   plans.sh write       writes every NAME.plan from its NAME.txt
#   plans.sh check       every NAME.plan is that of its NAME.txt
#   plans.sh run PROGRAM also runs PROGRAM on every NAME.plan, and compares what it prints
# It prints nothing where all is well.
set -eu
cd "$(dirname "$0")/../plans"

bytes() {
    local word rest
    while read -r word rest; do
        case $word in
            0x????????) printf '%b' "\\x${word:8:2}\\x${word:6:2}\\x${word:4:2}\\x${word:2:2}" ;;
        esac
    done
}

for text in *.txt; do
    name=${text%.txt}
    if [ "$1" = write ]; then
        bytes < "$text" > "$name.plan"
        continue
    fi
    bytes < "$text" | cmp -s - "$name.plan" || { echo "plans/$name.plan is not that of its text"; exit 1; }
    if [ "$1" = run ]; then
        ("$2" < "$name.plan" || true) | cmp -s - "$name.out" || { echo "plans/$name.plan prints something else than its $name.out"; exit 1; }
    fi
done
