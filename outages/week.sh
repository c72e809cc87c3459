#!/bin/sh
# The mission's week on one table: on Tuesday it becomes a sheet in 16/2, on Wednesday a station rewrites that in 32/32, on Thursday another in 2/2,
# and on Friday the last sheet becomes a table again, which is compared with Monday's.
#
#     outages/week.sh [table]
#
# The programs are where rt leaves them, as crates/print_sheet/out/print_sheet; what is missing there is proved and built.
set -eu
home=$(cd "$(dirname "$0")/.." && pwd)
monday=${1:-$home/outages/monday.table}
week=$(mktemp -d)
trap 'rm -rf "$week"' EXIT
bin=$week/bin
mkdir "$bin"
for program in print_sheet rewrite_sheet read_sheet; do
    built=$home/crates/$program/out/$program
    [ -x "$built" ] || (cd "$home/crates/$program" && rt run < /dev/null > /dev/null) || [ -x "$built" ]
    ln -s "$built" "$bin/$program"
done

"$bin/print_sheet" < "$monday" > "$week/tuesday"
"$bin/rewrite_sheet" 16/2/10 32/32/10 < "$week/tuesday" > "$week/wednesday"
"$bin/rewrite_sheet" 32/32/10 2/2/10 < "$week/wednesday" > "$week/thursday"
"$bin/read_sheet" 2/2/10 < "$week/thursday" > "$week/friday"
cmp "$monday" "$week/friday"
echo "$(($(wc -c < "$week/friday"))) bytes on Friday, the same as on Monday"
