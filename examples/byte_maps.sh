#!/bin/sh
# Writes byte_maps.kex, which has maps of bytes to copy: each is a choice with a side for each byte.
#   sh examples/byte_maps.sh >examples/byte_maps.kex
# For a map of your own, print its sides as sides_of does and give it a name.
set -eu

# The bytes from $1 to $2, but for the line feed.
bytes() {
    byte=$1
    while [ "$byte" -le "$2" ]; do
        [ "$byte" -eq 10 ] || echo "$byte"
        byte=$((byte + 1))
    done
}

# A byte as both a literal and a regular expression have it: a letter or a digit stands for itself.
spelt() {
    case $1 in
        4[89] | 5[0-7] | 6[5-9] | [78][0-9] | 90 | 9[789] | 10[0-9] | 11[0-9] | 12[012])
            printf "\\$(printf %o "$1")" ;;
        *) printf '\\x%02x' "$1" ;;
    esac
}

# What the map $1 writes for the byte $2.
image() {
    case $1 in
        lower) spelt $(($2 + 32)) ;;
        upper) spelt $(($2 - 32)) ;;
        latin1_utf8) spelt $((192 + $2 / 64)); spelt $((128 + $2 % 64)) ;;
        hex) printf '%02x' "$2" ;;
    esac
}

# The sides of the map $1 for the bytes from $2 to $3, some of them on a line.
sides_of() {
    count=0
    for byte in $(bytes "$2" "$3"); do
        [ $((count % $4)) -ne 0 ] || [ "$count" -eq 0 ] || printf '\n   '
        [ "$count" -eq 0 ] || printf ' | '
        printf '~/%s/ "%s"' "$(spelt "$byte")" "$(image "$1" "$byte")"
        count=$((count + 1))
    done
}

# A hexadecimal digit in either case; $1 is its number.
digit() {
    if [ "$1" -lt 10 ]; then echo "$1"; else printf '[%x%X]' "$1" "$1"; fi
}

# A side for each second digit of a pair, the first of which is $1.
second_digits() {
    low=0
    while [ "$low" -lt 16 ]; do
        case $low in
            0) ;;
            5 | 10 | 15) printf '\n        | ' ;;
            *) printf ' | ' ;;
        esac
        printf '~/%s/ "%s"' "$(digit "$low")" "$(spelt $(($1 * 16 + low)))"
        low=$((low + 1))
    done
}

cat <<'END'
// Maps of bytes, to copy from; byte_maps.sh beside this file writes them. The first word of a line
// tells which map the rest of it goes through. No map reads a line feed: for a text write
// (lower | /\n/)*.
start: lines >> maps

maps := (mapped /\n/)*
mapped := ~/lower / lower* | ~/upper / upper* | ~/utf8 / latin1_utf8* | ~/hex / hex*
    | ~/unhex / unhex*

END
printf '// Letters of ASCII; all other bytes stay.\n'
printf 'lower := %s\n    | /[^A-Z\\n]/\n' "$(sides_of lower 65 90 8)"
printf 'upper := %s\n    | /[^a-z\\n]/\n' "$(sides_of upper 97 122 8)"
printf '\n// Latin-1 to UTF-8.\n'
printf 'latin1_utf8 := /[\\x00-\\x09\\x0b-\\x7f]/\n    | %s\n' "$(sides_of latin1_utf8 128 255 4)"
printf '\n// A byte as two hexadecimal digits, and the other way round.\n'
printf 'hex := %s\n' "$(sides_of hex 0 255 6)"
printf 'unhex := '
high=0
while [ "$high" -lt 16 ]; do
    [ "$high" -eq 0 ] || printf '\n    | '
    printf '~/%s/ (%s)' "$(digit "$high")" "$(second_digits "$high")"
    high=$((high + 1))
done
cat <<'END'


// Every line ends in one line feed.
lines := (line ~/\r*/ /\n/)* (last ~/\r*/ "\n" | ~/\r+/)?
line := /([^\r\n]|\r+[^\r\n])*/
last := /([^\r\n]|\r+[^\r\n])+/
END
