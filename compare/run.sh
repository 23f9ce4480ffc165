#!/usr/bin/env bash
# The host test: runs the host example and the sheet programs, then compares the verified library with plain C on many states and images:
# compare/run.sh [SEED [COUNT]]
# The last line is `compare: N cases, 0 differences` (status 0), or the first difference is told in full (status 1).
# Needs a C compiler for x86-64 and, to make the library, the Rattle kit; it says so where one is missing.
set -euo pipefail
root=$(cd "$(dirname "${BASH_SOURCE[0]}")/.." && pwd)
me=compare
# shellcheck source=bench/tools.sh
. "$root/bench/tools.sh"

# The host example, an image for each run program: it prints what the program must print.
try_example() {
    local folder name words wrote=$root/target/host/wrote
    for folder in "$root"/crates/card_run*/; do
        name=$(basename "$folder") words=()
        case $name in *strict*) words=(--strict) ;; esac
        "$program" "${words[@]}" <"$folder/stdin" >"$wrote.$$" || [ $? -lt 4 ] ||
            missing "examples/host.c failed on crates/$name/stdin" "its line above says why"
        if ! cmp -s "$wrote.$$" "$folder/stdout"; then
            mv -f "$wrote.$$" "$wrote"
            say "examples/host.c printed something else than crates/$name/stdout has: target/host/wrote"
            finish 1
        fi
        rm -f "$wrote.$$"
    done
    say "examples/host.c printed what the run programs print"
}

# Damaged copies of the stored images, 30 of each with one byte changed, as a list in ROOM/list.
damage() {
    local image size i at
    mkdir "$room/night"
    for image in "$root"/samples/*.img "$root"/crates/card_sheet/data/*.img; do
        size=$(wc -c <"$image")
        for ((i = 1; i <= 30; i++)); do
            at=$((i * 37 % size))
            {
                head -c "$at" "$image"
                # shellcheck disable=SC2059
                printf "\\$(printf %03o $((i * 101 % 256)))"
                tail -c "+$((at + 2))" "$image"
            } >"$room/night/$i.$(basename "$image")"
        done
    done
    printf '%s\n' "$room"/night/*.img >"$room/list"
}

# The sheet programs beside plain C: their stored lists, and the damaged images, in both modes.
try_night() {
    local folder name words night
    find_room
    damage
    build night "$root/bench/night.c" "$root/bench/sheet.c" "$root/bench/sheet_images.c" "$root/bench/sheet_counts.c"
    night=$program
    for folder in "$root"/crates/card_sheet*/; do
        name=$(basename "$folder") words=()
        case $name in *strict*) words=(--strict) ;; esac
        (cd "$folder/data" && "$night" "${words[@]}" <"$folder/stdin") >"$room/stored" ||
            missing "bench/night.c failed on crates/$name/stdin" "its line above says why"
        find_program "$name"
        "$night" "${words[@]}" <"$room/list" >"$room/C" || missing "bench/night.c failed" "its line above says why"
        "$program" <"$room/list" >"$room/ours" 2>/dev/null || missing "$name failed" "run it by itself"
        if ! { cmp "$room/stored" "$folder/stdout" && cmp "$room/C" "$room/ours"; } >&2; then
            say "$name and bench/night.c differ"
            finish 1
        fi
    done
    say "the sheet programs printed what bench/night.c prints, also of $(wc -l <"$room/list") damaged images in each mode"
}

find_tools
find_library
build host "$root/examples/host.c"
try_example
try_night
build compare "$root"/compare/*.c "$root/bench/sheet.c" "$root/bench/sheet_images.c" "$root/bench/sheet_counts.c" \
    "$root/bench/sheet_export.c" "$root/bench/sheet_import.c" \
    "$root/bench/sheet_why.c"
ended=0
print_from "$program" "$@" || ended=$?
[ "$ended" -le 1 ] || missing "the host test ended with $ended" "its line above, if any, says why"
finish "$ended"
