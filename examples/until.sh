#!/bin/sh
# Writes definitions that read up to the first WORD, drop all of it, and go on to NEXT:
#   sh examples/until.sh NAME WORD NEXT
# Each is a mode that says how much of WORD has just been read. So the end is decided at its last
# byte, and what comes after is written at once. WORD is of ASCII's printing marks. To keep what is
# read, leave out each ~.
set -eu
if [ $# -ne 3 ]; then
    sed -n '2,/^set/s/^# \{0,1\}//p' "$0" >&2
    exit 2
fi
LC_ALL=C exec awk '
    # A byte as a regular expression has it, in sets too.
    function spelt(byte) { return byte ~ /[A-Za-z0-9 ]/ ? byte : "\\" byte }

    function mode(read) { return read == length(word) ? after : read == 0 ? name : name "_" read }

    # How much of the word has been read where `read` bytes of it have been and this one comes.
    function next_read(read, byte) {
        while (read > 0 && substr(word, read + 1, 1) != byte) read = shorter[read]
        return substr(word, read + 1, 1) == byte ? read + 1 : 0
    }

    BEGIN {
        name = ARGV[1]; word = ARGV[2]; after = ARGV[3]
        # The longest front of the word that is also an end of its first bytes.
        shorter[1] = 0
        for (i = 2; i <= length(word); i++) shorter[i] = next_read(shorter[i - 1], substr(word, i, 1))
        for (read = 0; read < length(word); read++) {
            line = mode(read) " := "
            others = ""
            split("", seen)
            for (i = length(word); i > 0; i--) {
                byte = substr(word, i, 1)
                to = next_read(read, byte)
                if (to == 0 || byte in seen) continue
                seen[byte]
                line = line "~/" spelt(byte) "/ " mode(to) " | "
                others = others spelt(byte)
            }
            print line "~/[^" others "]/ " name
        }
    }' "$@"
