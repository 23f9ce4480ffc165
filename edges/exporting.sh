# Checks of card export: the text, what a refusal leaves, and what the format cannot say.
# shellcheck shell=bash disable=SC2154

# An image of a Halt behind a Nop, one register and the entry, each given: N 2.
image_of() { # NAME REGISTER ENTRY
    printf '%b' '\02\0\0\0' '\0\0\0\0' '\0\0\0\015' '\01\0\0\0' "\\0$2\\0\\0\\0" '\01\0\0\0' "\\0$3\\0\\0\\0" >"$room/$1.img"
}

exports_text() { # IMAGE TEXT
    attempt "$card" export "$1"
    ends_with 0
    writes "$2"
}

exports_to_file() {
    printf old >"$room/halt.hex"
    attempt "$card" export "$room/halt.img" "$room/halt.hex"
    ends_with 0
    writes ''
    [ "$(cat "$room/halt.hex")" = ":040000000000000DEF"$'\n'":00000001FF" ] || wrong "the file has something else: $(cat "$room/halt.hex")"
}

refused_keeps_hex() {
    printf old >"$room/old.hex"
    attempt "$card" export /dev/null "$room/old.hex"
    ends_with 2
    says "/dev/null: 20: the image ends inside a field"
    [ "$(cat "$room/old.hex")" = old ] || wrong "the old text was changed"
}

# A new text where there is no room: the old one stays, and nothing else is left.
hex_on_full_disk() {
    small_disk 0
    attempt "$card" export "$room/halt.img" "$disk/out"
    could_not "and is as it was"
    [ "$(ls "$disk")" = out ] || wrong "something is left on the disk: $(ls "$disk")"
    [ "$(tr -d '\000' <"$disk/out" | wc -c)" -eq 0 ] || wrong "the old text was changed"
}

# What is lost is said, and the words are written all the same.
says_lost() { # NAME SENTENCE
    attempt "$card" export "$room/$1.img"
    ends_with 0
    says "$1.img $2"
    writes ":08000000000000000000000DEB"$'\n'":00000001FF"
}

export_checks() {
    image_of registers 5 0
    image_of entry 5 1
    check exports_text "$room/halt.img" ":040000000000000DEF"$'\n'":00000001FF" -- "export: the text of an image"
    check exports_to_file -- "export: the text goes to a file, in an old one's place"
    check refused_keeps_hex -- "export: a refused image is status 2, with its sentence, and an old text stays"
    check hex_on_full_disk -- "export: no room for the text, and the old one stays"
    check says_lost registers "lists registers, which Intel HEX cannot say" -- "export: registers are lost, which is said"
    check says_lost entry "does not begin at address 0, which Intel HEX cannot say" -- "export: an entry is lost, which is said"
}
