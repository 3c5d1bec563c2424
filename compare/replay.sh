#!/bin/sh
# sh replay.sh SAMPLE COMMAND [WORD ..]
# Gives COMMAND each script of SAMPLE on standard input, and holds what it prints to the recorded lines. No Rust needed.
set -u
[ $# -ge 2 ] || { echo 'usage: sh replay.sh SAMPLE COMMAND [WORD ..]' >&2; exit 2; }
sample=$1
shift
work=$(mktemp -d) || exit 2
trap 'rm -rf "$work"' EXIT

# hexadecimal to the octal escapes that every shell's printf knows
escaped() {
    awk '{
        digits = "0123456789ABCDEF"
        for (i = 1; i < length($2); i += 2) {
            byte = 16 * (index(digits, substr($2, i, 1)) - 1) + index(digits, substr($2, i + 1, 1)) - 1
            printf "\\0%03o", byte
        }
    }'
}

while IFS= read -r line; do
    case $line in
    '#'*) printf '%s\n' "$line" ;;
    script*)
        printf '%s\n' "$line"
        printf '%b' "$(printf '%s\n' "$line" | escaped)" | "$@"
        ;;
    esac
done <"$sample" >"$work/replayed"

if diff "$sample" "$work/replayed" >"$work/differences"; then
    echo "$(grep -c '^script' "$sample") scripts, every line as recorded"
else
    echo "DIFFERENCES (<: recorded, >: printed now):"
    head -40 "$work/differences"
    exit 1
fi
