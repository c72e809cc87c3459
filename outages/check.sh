#!/bin/sh
# Runs the programs over tables, sheets and packed tables, and compares what they write with what the documents say.
set -eu
here=$(cd "$(dirname "$0")" && pwd)
work=$(mktemp -d)
trap 'rm -rf "$work"' EXIT
bin=$work/bin
mkdir "$bin"
for program in print_sheet read_sheet rewrite_sheet pack_table unpack_table; do
    ln -s "$here/../crates/$program/out/$program" "$bin/$program"
done

fail() {
    echo "$1: wrong" >&2
    exit 1
}

# a program's name and arguments, behind a name for the case and the line that it must write
says() {
    name=$1 wanted=$2
    shift 2
    [ "$("$@" 2>&1 < "$work/input" | head -n 1)" = "$wanted" ] || fail "$name"
}

# the same, with all that it must write behind the first line
rows() {
    name=$1 wanted=$2
    shift 2
    [ "$("$@" < "$work/input" | sed 1d)" = "$wanted" ] || fail "$name"
}

# floats as a table has them; the survey's are -315597599.75 and -315590399.5
floats() {
    for float in "$@"; do
        case $float in
            zero) printf '\0\0\0\0\0\0\0\0' ;;
            least) printf '\1\0\0\0\0\0\0\0' ;;
            one) printf '\0\0\0\0\0\0\360\77' ;;
            infinity) printf '\0\0\0\0\0\0\360\177' ;;
            nan) printf '\0\0\0\0\0\0\370\177' ;;
            -zero) printf '\0\0\0\0\0\0\0\200' ;;
            -least) printf '\1\0\0\0\0\0\0\200' ;;
            -one) printf '\0\0\0\0\0\0\360\277' ;;
            -one_and_half) printf '\0\0\0\0\0\0\370\277' ;;
            -infinity) printf '\0\0\0\0\0\0\360\377' ;;
            -nan) printf '\0\0\0\0\0\0\370\377' ;;
            survey_start) printf '\0\0\300\37\243\317\262\301' ;;
            survey_end) printf '\0\0\200\377\206\317\262\301' ;;
            *) fail "the float $float" ;;
        esac
    done
}

# a table of one window
window() {
    printf '\1\0\0\0\30\0\0\0'
    floats "$1" "$2"
}

"$here/week.sh"
head -c 6400 /dev/zero > "$work/zeros"

# ---- print_sheet: tables of 0 to 9 bytes, one at its longest, and one byte more
for size in 0 1 2 3 4 5 6 7 9; do
    printf '\0\0\0\0\10\0\0\0\0' | head -c $size > "$work/input"
    says "a table of $size bytes" 'refused 13 at 0' "$bin/print_sheet"
done
printf '\0\0\0\0\10\0\0\0' > "$work/input"
says 'no window' 0 "$bin/print_sheet"
{ printf '\220\1\0\0\10\31\0\0'; cat "$work/zeros"; } > "$work/input"
says '400 windows' 400 "$bin/print_sheet"
[ "$("$bin/print_sheet" < "$work/input" | sed 1d | sort -u)" = '0.0p0 0.0p0' ] || fail 'rows of 400 windows'
"$here/week.sh" "$work/input"
printf '\0' >> "$work/input"
says 'a byte more than the longest table' 'refused 13 at 0' "$bin/print_sheet"
{ printf '\221\1\0\0\30\31\0\0'; cat "$work/zeros"; head -c 16 /dev/zero; } > "$work/input"
says '401 windows' 'refused 13 at 0' "$bin/print_sheet"

# ---- print_sheet: a sign bit is written as "-", windows are compared by value, and only infinities and NaN are refused by 7
while IFS=: read -r start end wanted; do
    window "$start" "$end" > "$work/input"
    case $wanted in
        refused*) says "a window from $start to $end" "$wanted" "$bin/print_sheet" ;;
        *)
            rows "a window from $start to $end" "$wanted" "$bin/print_sheet"
            "$here/week.sh" "$work/input"
            ;;
    esac
done <<'END'
zero:-zero:0.0p0 -0.0p0
-zero:zero:-0.0p0 0.0p0
-zero:-zero:-0.0p0 -0.0p0
-zero:one:-0.0p0 1.0p0
-one:-zero:-1.0p0 -0.0p0
-one_and_half:-one:-1.8p0 -1.0p0
-one_and_half:one:-1.8p0 1.0p0
-least:least:-4.0p-1076 4.0p-1076
-one:-one_and_half:refused 14 at 0
-zero:-least:refused 14 at 0
zero:-one:refused 14 at 0
infinity:one:refused 7 at 0
-infinity:one:refused 7 at 0
-one:-infinity:refused 7 at 0
-nan:one:refused 7 at 0
-one:-nan:refused 7 at 0
one:nan:refused 7 at 0
END

# ---- the sheet programs: refusals
printf '1\n1.0p0 1.8p0 \n' > "$work/input"
says 'a second space' 'refused 15 at 2' "$bin/read_sheet" 16/2/10
says 'a second space, rewritten' 'refused 15 at 2' "$bin/rewrite_sheet" 16/2/10 2/2/10
printf '1\n1.0p0 1.0q0\n' > "$work/input"
says 'a wrong mark' 'refused 9 at 11' "$bin/read_sheet" 16/2/10

# ---- a field may begin with one "-" and with no "+", and every place counts it
while IFS=: read -r row wanted; do
    printf '1\n%s\n' "$row" > "$work/input"
    says "the row '$row'" "$wanted" "$bin/read_sheet" 16/2/10
    says "the row '$row', rewritten" "$wanted" "$bin/rewrite_sheet" 16/2/10 2/2/10
done <<'END'
- 1:refused 9 at 3
--1 1:refused 9 at 3
+1 1:refused 9 at 2
-+1 1:refused 9 at 3
-x 1:refused 9 at 3
-1 -:refused 9 at 6
-1 --1:refused 9 at 6
-1 +1:refused 9 at 5
-1p99999 1:refused 10 at 5
-1p2000 1:refused 11 at 2
-1 -1p2000:refused 11 at 5
-1 -1.8:refused 14 at 2
0 -1p-1074:refused 14 at 2
END
printf '%s\n' -1 '-1 1' > "$work/input"
says 'a count line with a sign' 'refused 15 at 0' "$bin/read_sheet" 16/2/10

# ---- behind "-" what rounds to zero is minus zero
printf '1\n-1p-2000 1p-2000\n' > "$work/input"
rows 'a start that rounds to minus zero' '-0.0p0 0.0p0' "$bin/rewrite_sheet" 16/2/10 16/2/10
window -zero zero > "$work/table"
"$bin/read_sheet" 16/2/10 < "$work/input" | cmp - "$work/table" || fail 'the table of a start that rounds to minus zero'

# ---- a sheet with signs through the week: old survey rows, and both zeros in both orders
cat > "$work/tuesday" <<'END'
6
-1.2CFA31FCp28 -1.2CF86FF8p28
-1.8p0 -0.0p0
-0.0p0 0.0p0
0.0p0 -0.0p0
-0.0p0 4.0p-1076
-4.0p-1076 -0.0p0
END
cat > "$work/wednesday" <<'END'
6
-9.CV8OVOp5 -9.CV1NVGp5
-1.Gp0 -0.0p0
-0.0p0 0.0p0
0.0p0 -0.0p0
-0.0p0 2.0p-215
-2.0p-215 -0.0p0
END
cat > "$work/thursday" <<'END'
6
-1.001011001111101000110001111111p28 -1.00101100111110000110111111111p28
-1.1p0 -0.0p0
-0.0p0 0.0p0
0.0p0 -0.0p0
-0.0p0 1.0p-1074
-1.0p-1074 -0.0p0
END
{
    printf '\6\0\0\0\150\0\0\0'
    floats survey_start -one_and_half -zero zero -zero -least
    floats survey_end -zero zero -zero least -zero
} > "$work/monday"
"$bin/print_sheet" < "$work/monday" | cmp - "$work/tuesday" || fail 'signs on Tuesday'
"$bin/rewrite_sheet" 16/2/10 32/32/10 < "$work/tuesday" | cmp - "$work/wednesday" || fail 'signs on Wednesday'
"$bin/rewrite_sheet" 32/32/10 2/2/10 < "$work/wednesday" | cmp - "$work/thursday" || fail 'signs on Thursday'
"$bin/read_sheet" 2/2/10 < "$work/thursday" | cmp - "$work/monday" || fail 'signs on Friday'
"$bin/rewrite_sheet" 2/2/10 16/2/10 < "$work/thursday" | cmp - "$work/tuesday" || fail 'signs back in 16/2'

# ---- an end that lies between the largest float and the edge of refusal 11 goes through the week and comes back as the largest float
printf '1\n1.0p0 F.FFFFFFFFFFFF8Fp1020\n' > "$work/tuesday"
"$bin/rewrite_sheet" 16/2/10 32/32/10 < "$work/tuesday" > "$work/wednesday"
[ "$(sed 1d "$work/wednesday")" = '1.0p0 F.VVVVVVVVVUp204' ] || fail 'a never end on Wednesday'
"$bin/rewrite_sheet" 32/32/10 2/2/10 < "$work/wednesday" > "$work/thursday"
"$bin/read_sheet" 2/2/10 < "$work/thursday" > "$work/friday"
printf '\1\0\0\0\30\0\0\0\0\0\0\0\0\0\360\77\377\377\377\377\377\377\357\177' | cmp - "$work/friday" || fail 'a never end on Friday'
printf '1\n1.0p0 F.FFFFFFFFFFFFCp1020\n' > "$work/input"
says 'an end at the edge' 'refused 11 at 8' "$bin/read_sheet" 16/2/10
says 'an end at the edge, rewritten' 'refused 11 at 8' "$bin/rewrite_sheet" 16/2/10 32/32/10

# ---- exponents of any width are read, and written in width 1; a count line of two digits for one window is none
printf '1\n1.0p000 1.8p-0000\n' > "$work/input"
rows 'wide exponents' '1.0p0 1.8p0' "$bin/rewrite_sheet" 16/2/10 16/2/10
printf '01\n1.0p000 1.8p000\n' > "$work/input"
says 'a wide count line' 'refused 15 at 0' "$bin/read_sheet" 16/2/10

# ---- pack_table and unpack_table: two windows whose bytes all differ, there and back
printf '\2\0\0\0\50\0\0\0abcdefghABCDEFGHijklmnopIJKLMNOP' > "$work/table"
printf '\2\0\0\0\50\0\0\0aAbBcCdDeEfFgGhHiIjJkKlLmMnNoOpP' > "$work/packed"
"$bin/pack_table" < "$work/table" | cmp - "$work/packed" || fail 'two windows packed'
"$bin/unpack_table" < "$work/packed" | cmp - "$work/table" || fail 'two windows unpacked'

# ---- Monday's table in the archive, and rows that no sheet has
window nan -nan > "$work/input"
for table in "$here/monday.table" "$work/input"; do
    "$bin/pack_table" < "$table" > "$work/packed"
    "$bin/unpack_table" < "$work/packed" | cmp - "$table" || fail "$table from the archive"
done

# ---- every length from 0 to 24 bytes: zeros are no table, and of a table of one window only all 24 bytes are
for size in 0 1 2 3 4 5 6 7 8 9 10 11 12 13 14 15 16 17 18 19 20 21 22 23 24; do
    head -c $size /dev/zero > "$work/input"
    says "$size zeros packed" 'refused 13 at 0' "$bin/pack_table"
    says "$size zeros unpacked" 'refused 17 at 0' "$bin/unpack_table"
    window one one | head -c $size > "$work/input"
    [ $size = 24 ] && continue
    says "$size bytes of a table packed" 'refused 13 at 0' "$bin/pack_table"
    says "$size bytes of a table unpacked" 'refused 17 at 0' "$bin/unpack_table"
done
"$bin/pack_table" < "$work/input" | cmp - "$work/input" || fail 'one window packed'
printf '\0\0\0\0\10\0\0\0' > "$work/input"
"$bin/pack_table" < "$work/input" | cmp - "$work/input" || fail 'no window packed'
"$bin/unpack_table" < "$work/input" | cmp - "$work/input" || fail 'no window unpacked'

# ---- the longest, one byte more, 401 windows, and a refusal handed on
{ printf '\220\1\0\0\10\31\0\0'; cat "$work/zeros"; } > "$work/input"
"$bin/pack_table" < "$work/input" | cmp - "$work/input" || fail '400 windows packed'
"$bin/unpack_table" < "$work/input" | cmp - "$work/input" || fail '400 windows unpacked'
printf '\0' >> "$work/input"
says 'a byte more than the longest, packed' 'refused 13 at 0' "$bin/pack_table"
says 'a byte more than the longest, unpacked' 'refused 17 at 0' "$bin/unpack_table"
{ printf '\221\1\0\0\30\31\0\0'; cat "$work/zeros"; head -c 16 /dev/zero; } > "$work/input"
says '401 windows packed' 'refused 13 at 0' "$bin/pack_table"
says '401 windows unpacked' 'refused 17 at 0' "$bin/unpack_table"
printf 'refused 13 at 0\n' > "$work/input"
says 'a refusal handed on to unpack_table' 'refused 17 at 0' "$bin/unpack_table"

# ---- inputs that are too long, and arguments that are no format
head -c 3277605 /dev/zero | tr '\0' 1 > "$work/input"
says 'a sheet longer than any' 'refused 15 at 3277604' "$bin/read_sheet" 16/2/10
: > "$work/input"
for argument in '' 16 16/2 16/2/ 16/2/10/ 016/2/10 16/2/3 16/8/10 33/2/10 16/2/10p; do
    says "the format '$argument'" 'usage: read_sheet FORMAT < sheet > table' "$bin/read_sheet" "$argument"
    says "the format '$argument', rewritten" 'usage: rewrite_sheet FROM TO < sheet > sheet' "$bin/rewrite_sheet" 16/2/10 "$argument"
done
says 'no format' 'usage: read_sheet FORMAT < sheet > table' "$bin/read_sheet"
says 'a format too many' 'usage: read_sheet FORMAT < sheet > table' "$bin/read_sheet" 16/2/10 16/2/10
echo 'the programs wrote what they must'
