#!/bin/sh
# Prints the section of docs/BENCHMARKS.md that has instructions, by callgrind: those of 11,000 calls from C less those of 1,000, a call, or of 110 less 10 where a call takes a table of 400 windows.
# BEFORE=FILE names another libexports.a, and WHEN what to call it; its counts then stand in rows of their own.
set -eu
cd "$(dirname "$0")"
work=$(mktemp -d)
trap 'rm -rf "$work"' EXIT

compiled() { # NAME ARCHIVE
    "${CC:-cc}" -std=c11 -O2 -I../host/include "$1.c" "$2" -o "$work/$1"
}

counted() { # PROGRAM WHAT COUNT [RADIX BASE]
    program=$work/$1
    shift
    valgrind --tool=callgrind --callgrind-out-file=/dev/null "$program" "$@" 2>&1 | sed -n 's/.*Collected : //p'
}

a_call() { # TIMES PROGRAM WHAT [RADIX BASE]
    times=$1 program=$2 what=$3
    shift 3
    echo $((($(counted "$program" "$what" $((11 * times)) "$@") - $(counted "$program" "$what" "$times" "$@")) / (10 * times)))
}

row() { # NAME TIMES WHAT
    echo "| $1 | $(a_call "$2" instructions "$3" 16 2) | $(a_call "$2" instructions "$3" 32 32) | $(a_call "$2" instructions "$3" 2 2) |"
}

rows() { # ARCHIVE SUFFIX
    compiled instructions "$1"
    row "a float written$2" 1000 float
    row "a number's digits$2" 1000 digits
    row "400 windows, table to sheet$2" 10 to-sheet
    row "400 windows, sheet to table$2" 10 to-table
}

packing() { # NAME
    count=$(a_call 10 packing "$1")
    echo "| 400 windows, $1 | $count | $(awk "BEGIN { printf \"%.1f\", $count / (8 + 16 * 400) }") |"
}

command -v valgrind > "$work/valgrind" || exit 0
cat <<'END'

## Instructions

Of a call from C, counted by callgrind, with those of the loop around it: random bits, sign clear, exponent radix 10, exponent required, width 1. Decisions 145 to 147 say what the order of the digits costs.

| call | 16/2 | 32/32 | 2/2 |
|---|---|---|---|
END
[ -z "${BEFORE:-}" ] || rows "$BEFORE" ", ${WHEN:-before}"
rows ../crates/exports/out/libexports.a ''
compiled packing ../crates/exports/out/libexports.a
cat <<'END'

Packing looks at no float, so its count is the same for every table of 400 windows.

| call | instructions | a byte of the table |
|---|---|---|
END
packing pack
packing unpack
