#!/bin/sh
# Prints the section of docs/BENCHMARKS.md that has a year of tables, packed and not, through the compressors that are there.
set -eu
cd "$(dirname "$0")"
work=$(mktemp -d)
trap 'rm -rf "$work"' EXIT
missing=

size() { # FILE COMMAND...
    file=$1
    shift
    "$@" < "$work/$file" | wc -c | tr -d ' '
}

row() { # COMMAND...
    if ! command -v "$1" > "$work/found"; then
        missing="$missing \`$1\`"
        return
    fi
    tables=$(size tables "$@" -c)
    packed=$(size packed "$@" -c)
    echo "| \`$*\` | $tables | $packed | $(awk "BEGIN { printf \"%.2f\", $packed / $tables }") |"
}

target/release/year "$work"
cat <<END

## A year of tables

Weekly tables lie side by side in store, and their high bytes hardly vary: this is what packing gains a compressor. 52 tables of 400 windows, one behind the other, have $(size tables cat) bytes, packed as many. They are made up, and \`compare/compare/src/bin/year.rs\` says how: most windows recur from week to week, some move by minutes, a few are dropped and others added. It packs each by our call. Both files went through the same command; sizes are of what came out, in bytes, and the ratio is packed by not packed.

| compressor | not packed | packed | ratio |
|---|---|---|---|
END
row gzip -9
row xz -9
row zstd -19
[ -z "$missing" ] || printf '\nNot there:%s.\n' "$missing"
