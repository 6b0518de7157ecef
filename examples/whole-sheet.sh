#!/bin/sh
# Whether a file holds a whole sheet: the sheet program can't give a status, so a full disk or a closed pipe shows only in what
# it wrote. Status 0: a line `house`, the sections by rising number, and `head` with its newline; or `refused` and a number.
# Status 1: anything else, an empty file too.
awk '
    /^refused [0-9]+$/ && NR == 1 { refused = 1; next }
    /^house [0-9]+ [0-9]+ [0-9]+$/ && NR == 1 { house = 1; next }
    /^section [0-9]+ [0-9]+ [0-9]+ [0-9]+$/ && house && !head && $2 == NR - 1 { next }
    /^head -?[0-9]+ [0-9]+ [0-9]+$/ && house && !head && NR > 2 { head = 1; next }
    { odd = 1 }
    END { exit !(!odd && (head || (refused && NR == 1))) }
' "$1" && test "$(tail -c 1 "$1" | od -An -c | tr -d ' ')" = '\n' || {
    echo "$1: the sheet is not whole; its output was lost" >&2
    exit 1
}
