#!/usr/bin/env bash
# Intel HEX with real tools at the other end: interop/run.sh [SEED [COUNT]]
# Random images are written by objcopy and srec_cat, in records of many lengths, with and without type 04 records, with LF and with CR LF,
# with a gap and with a start address left out; the library must import each as its words. And the library's exports are read back by both
# tools: the bytes must be the images'. The last line counts what was compared and ends with `0 differences` (status 0), or differences
# are told (status 1).
# Needs Debian's binutils and srecord, a C compiler for x86-64 and, to make the library, the Rattle kit; it says so where one is missing.
set -euo pipefail
root=$(cd "$(dirname "${BASH_SOURCE[0]}")/.." && pwd)
me=interop
# shellcheck source=bench/tools.sh
. "$root/bench/tools.sh"

seed=${1-1} count=${2-100}

# A tool's own words are shown where it fails.
tool() {
    "$@" >"$room/said" 2>&1 || missing "$1 failed: $(head -n 1 "$room/said")" "its words were: $*"
}

# Has both tools write the bytes of image I, in each way, and read the library's text of them.
use_tools() { # I
    local of=$room/$1 first past
    read -r first past <"$of.gap"
    tool objcopy -I binary -O ihex --set-start=0 "$of.bin" "$of.objcopy.hex"
    tool srec_cat "$of.bin" -Binary -o "$of.srec.hex" -Intel
    tool srec_cat "$of.bin" -Binary -o "$of.short.hex" -Intel "-obs=$((1 + $1 % 32))"
    tool srec_cat "$of.bin" -Binary -o "$of.long.hex" -Intel -obs=255
    tool srec_cat "$of.bin" -Binary -o "$of.crlf.hex" -Intel -CRLF
    tool srec_cat "$of.bin" -Binary -o "$of.plain.hex" -Intel -address-length=2
    tool srec_cat "$of.bin" -Binary -o "$of.start.hex" -Intel -execution-start-address=4 -disable=exec-start-address
    if [ "$first" -lt "$past" ]; then
        tool srec_cat "$of.bin" -Binary -exclude "$first" "$past" -o "$of.gap.hex" -Intel
    else
        cp "$of.srec.hex" "$of.gap.hex"
    fi
    tool objcopy -I ihex -O binary "$of.ours.hex" "$of.objcopy.back"
    tool srec_cat "$of.ours.hex" -Intel -o "$of.srec.back" -Binary
}

command -v objcopy >/dev/null || missing "objcopy was not found" "on Debian: apt-get install binutils"
command -v srec_cat >/dev/null || missing "srec_cat was not found" "on Debian: apt-get install srecord"
find_tools
find_library
build interop "$root/interop/interop.c"
find_room
say "seed $seed, $count images"
"$program" make "$seed" "$count" "$room" || missing "the images could not be made" "its line above says why"
for ((i = 0; i < count; i++)); do use_tools "$i"; done
ended=0
print_from "$program" check "$count" "$room" || ended=$?
[ "$ended" -le 1 ] || missing "the comparison ended with $ended" "its line above says why"
finish "$ended"
