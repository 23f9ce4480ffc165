# Checks of card import: where the image goes, what a refusal says and leaves, and the entry.
# shellcheck shell=bash disable=SC2016,SC2154

# A text of one word, Halt, and others with a fault.
hex_texts() {
    printf '%s\n' ':040000000000000DEF' ':00000001FF' >"$room/halt.hex"
    printf '%s\r\n' ':040000000000000DEF' ':00000001FE' >"$room/sum.hex"
    printf '%s\n' ':040000000000000DEF' >"$room/endless.hex"
}

# The image is the one that the assembler writes.
imports() {
    cp "$room/halt.hex" "$room/one.hex"
    attempt "$card" import "$room/one.hex"
    ends_with 0
    cmp -s "$room/one.img" "$room/halt.img" || wrong "one.img is not the image of Halt"
    attempt_line '"$0" import - <"$1" | cmp - "$2"' "$room/halt.hex" "$room/halt.img"
    ends_with 0
}

# A refusal leaves an old image as it was, and nothing beside it.
import_refused() { # NAME SAID
    mkdir "$room/alone"
    cp "$room/$1.hex" "$room/alone"
    printf old >"$room/alone/$1.img"
    attempt "$card" import "$room/alone/$1.hex"
    ends_with 2
    writes ''
    says "$1.hex:$2"
    [ "$(cat "$room/alone/$1.img")" = old ] || wrong "the old image was changed"
    [ "$(ls "$room/alone")" = "$(printf '%s\n' "$1.hex" "$1.img" | sort)" ] || wrong "something is left: $(ls "$room/alone")"
    rm -r "$room/alone"
}

import_on_full_disk() {
    small_disk 0
    attempt "$card" import "$room/halt.hex" "$disk/out"
    could_not "and is as it was"
    [ "$(ls "$disk")" = out ] || wrong "something is left on the disk: $(ls "$disk")"
}

entry_is() { # NUMBER STATUS SAID
    attempt "$card" import "$room/halt.hex" --entry "$1" "$room/entry.img"
    ends_with "$2"
    says "$3"
}

# One byte more than a text may have.
long_text() {
    head -c 262145 /dev/zero >"$room/long.hex"
    attempt "$card" import "$room/long.hex"
    could_not "longer than 262,144 bytes"
}

import_to_full() {
    attempt_line 'exec "$0" import "$1" - >/dev/full' "$room/halt.hex"
    ends_with 4
    says "standard output could not be written"
}

import_checks() {
    hex_texts
    check imports -- "import: the image of a text, beside it and on standard output"
    check import_refused sum "2: 61: the checksum is wrong" -- "import: a refusal tells the line, and leaves an old image as it was"
    check import_refused endless " 65: there is no end record" -- "import: a refusal of no record tells no line"
    check import_on_full_disk -- "import: no room for the image, and the old one stays"
    check entry_is 000 0 '' -- "import: zeros in front of the entry"
    check entry_is 1 2 "25: the entry is not a memory address" -- "import: an entry behind the last word"
    check entry_is 18446744073709551616 2 "25: the entry is not a memory address" -- "import: an entry beyond 64 bits"
    check entry_is 0x1 4 "a whole number after --entry" -- "import: an entry that is no number"
    check entry_is '' 4 "a whole number after --entry" -- "import: an entry that is empty"
    check long_text -- "import: a text that is longer than 262,144 bytes"
    check import_to_full -- "import: standard output is full"
}
