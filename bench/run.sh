#!/usr/bin/env bash
# Times the verified library beside plain C: bench/run.sh [MILLISECONDS [ROUNDS]]
# Where a loop begins in a line of the processor's cache makes it faster or slower by chance, so the library is timed at four
# places: each of its functions 0, 16, 32 and 48 bytes behind the start of a page, plain C at the start of one. The times and ratios
# that are printed are the means over the places, with the least and the greatest ratio; the last line is `ratio R`, the smallest mean
# of C's time divided by ours over the first three rows.
# PLACE=0, 16, 32 or 48 takes one of the places, PLACE=linker those that the linker gives; then the table is of that one.
# Needs a C compiler for x86-64 and, to make the library, the Rattle kit; it says so where one is missing.
set -euo pipefail
root=$(cd "$(dirname "${BASH_SOURCE[0]}")/.." && pwd)
me=bench
# shellcheck source=bench/tools.sh
. "$root/bench/tools.sh"

# Compiles the bench with each function of the library SHIFT bytes behind the start of a page, and sets `program`.
build_at() { # SHIFT
    local script=$root/target/bench/at_$1.ld
    make_folder bench
    {
        printf 'SECTIONS {\n  .placed : {\n'
        objdump -h "$library" | awk -v shift="$1" '
            $2 ~ /^\.text\./ && !seen[$2]++ { printf "    . = ALIGN(4096) + %d; *(%s)\n", shift, $2 }'
        printf '    . = ALIGN(4096);\n  }\n} INSERT AFTER .text;\n'
    } >"$script" || missing "the places of the library's functions could not be written to $script" "look at the room and the rights there"
    options="-falign-functions=4096 -Wl,-T,$script"
    build_bench "bench_at_$1"
}

build_bench() { # NAME
    build "$1" "$root/bench/bench.c" "$root/bench/sources.c" "$root/bench/hex.c" "$root/bench/sheet.c" "$root/bench/sheet_images.c" \
        "$root/bench/sheet_export.c" "$root/bench/sheet_import.c"
}

# One table of several: the rows' means, and the least and the greatest of their ratios.
together() { # TABLES
    awk '
        FNR == 1 { place++; line = 0 }
        { line++; text[line] = $0; last = line }
        line > 1 && $NF ~ /^[0-9.]+$/ && NF > 4 {
            c[line] += $(NF - 2); ours[line] += $(NF - 1); ratio[line] += $NF
            if (place == 1 || $NF < low[line]) low[line] = $NF
            if (place == 1 || $NF > high[line]) high[line] = $NF
        }
        END {
            print text[1] "  least to greatest"
            for (i = 2; i < last; i++) {
                if (!(i in ratio)) { print text[i]; continue }
                mean = ratio[i] / place
                printf "%s %10.2f %10.2f %8.2f  %.2f to %.2f\n", substr(text[i], 1, 43), c[i] / place, ours[i] / place, mean, low[i], high[i]
                if (rows++ < 3 && (rows == 1 || mean < least)) least = mean
            }
            printf "ratio %.2f\n", least
        }' "$@"
}

# The least of ROUNDS times of a program over ROOM/list, in milliseconds; what it wrote is in ROOM/NAME.
night_ms() { # NAME ROUNDS COMMAND...
    local name=$1 rounds=$2 least='' began took
    shift 2
    while [ "$rounds" -gt 0 ]; do
        began=$(date +%s%N)
        "$@" <"$room/list" >"$room/$name" 2>/dev/null || missing "the sheet of $name failed" "run '$*' by itself"
        took=$(($(date +%s%N) - began))
        if [ -z "$least" ] || [ "$took" -lt "$least" ]; then least=$took; fi
        rounds=$((rounds - 1))
    done
    awk -v ns="$least" 'BEGIN { printf "%.2f", ns / 1000000 }'
}

# A sheet of 1,000 files of 1,000 steps each, a process for the whole list: the program beside plain C that does the same, with the
# same text. A row of its own, outside the ratio.
night_row() { # ROUNDS
    local i c ours
    # Const 499 r1, Const 1 r2, Sub r1 r2 r1, Bnz r1 back to it, Halt; no registers, entry 0
    printf '\005\0\0\0\363\001\020\001\001\0\040\001\001\0\022\004\377\377\020\014\0\0\0\015\0\0\0\0\001\0\0\0\0\0\0\0' >"$room/image"
    mkdir "$room/night"
    for ((i = 0; i < 1000; i++)); do cp "$room/image" "$room/night/$i.img"; done
    printf '%s\n' "$room"/night/*.img >"$room/list"
    options=''
    build night "$root/bench/night.c" "$root/bench/sheet.c" "$root/bench/sheet_images.c" "$root/bench/sheet_counts.c"
    c=$(night_ms C "$1" "$program")
    find_program card_sheet
    ours=$(night_ms ours "$1" "$program")
    cmp "$room/C" "$room/ours" >&2 || missing "the sheet and the plain C differ" "bench/night.c is the plain C"
    awk -v c="$c" -v ours="$ours" 'BEGIN { printf "%-30s %12d %10.2f %10.2f %8.2f  (outside the ratio)\n", "a sheet of 1,000 images", 1000000, c, ours, c / ours }'
}

# The table, with that row before its last line.
with_night() { # TABLES
    together "$@" >"$room/table" && sed '$d' "$room/table" && cat "$room/row" && tail -n 1 "$room/table"
}

find_tools
find_library
case ${PLACE-} in
linker)
    build_bench bench
    print_from "$program" "$@"
    finish 0
    ;;
0 | 16 | 32 | 48)
    build_at "$PLACE"
    print_from "$program" "$@"
    finish 0
    ;;
'') ;;
*) missing "there is no place '$PLACE'" "PLACE is 0, 16, 32, 48, linker or not set" ;;
esac
find_room
tables=()
for shift in 0 16 32 48; do
    build_at "$shift"
    say "functions $shift bytes behind the start of a page"
    "$program" "${1-50}" "${2-11}" >"$room/at_$shift" || missing "the bench failed" "its lines above say why"
    tables+=("$room/at_$shift")
done
night_row "${2-11}" >"$room/row"
print_from with_night "${tables[@]}"
finish 0
