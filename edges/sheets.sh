# Checks of card sheet: odd lists and odd files have their lines, and what cannot be read or written is told.
# shellcheck shell=bash disable=SC2016,SC2154

halts='answer 1 steps 0 pc 0 prev 0 jumped 0 next 4 widest 1'

# The last line of a sheet in which nothing stopped.
totals_of() { # IMAGES REFUSED HALTED BUDGET STEPS
    printf 'images %s refused %s halted %s stopped 2 0 3 0 4 0 5 0 6 0 7 0 8 0 9 0 10 0 11 0 12 0 13 0 16 0 budget %s steps %s' "$@"
}

# A list, given with its escapes, is tried in the folder of the images.
sheet_of() { # TEXT
    printf %b "$1" >"$room/list"
    cd "$room" || return
    attempt "$card" sheet list
}

# A list whose one name is refused as 20.
refused_name() { # TEXT
    sheet_of "$1"
    ends_with 1
    writes "refused 20"$'\n'"$(totals_of 1 1 0 0 0)"
}

# A list that names halt.img once.
one_name() { # TEXT
    sheet_of "$1"
    ends_with 0
    writes "$halts"$'\n'"$(totals_of 1 0 1 0 0)"
}

# A name that is no text in UTF-8.
odd_name() {
    cp "$room/halt.img" "$room/h"$'\377'".img"
    one_name 'h\0377.img\n'
}

no_names() {
    sheet_of ''
    ends_with 0
    writes "$(totals_of 0 0 0 0 0)"
}

# A name of so many bytes that leads to halt.img.
long_name() { # BYTES
    local name=halt.img
    while [ ${#name} -lt $(($1 - 1)) ]; do name=./$name; done
    [ ${#name} -eq "$1" ] || name=./${name/\//\/\/}
    printf '%s' "${name:$((${#name} - $1))}"
}

# Between two good names, one of 5,000 bytes.
overlong_between() {
    sheet_of "halt.img\n$(printf '%5000s' '' | tr ' ' x)\nhalt.img\n"
    ends_with 1
    writes "$halts"$'\n'"refused 20"$'\n'"$halts"$'\n'"$(totals_of 3 1 2 0 0)"
}

after_10000() {
    sheet_of ''
    yes halt.img | head -n 10001 >"$room/list"
    attempt "$card" sheet list
    ends_with 0
    says "a list ends after 10,000 names"
    [ "$(wc -l <"$room/out")" -eq 10001 ] || wrong "it wrote $(wc -l <"$room/out") lines"
    [ "$(tail -n 1 "$room/out")" = "$(totals_of 10000 0 10000 0 0)" ] || wrong "the totals are: $(tail -n 1 "$room/out")"
}

# Most steps that there can be in a sheet, with its progress on a terminal.
most_steps() {
    command -v script >/dev/null || skip "the command script is not there"
    yes loop.img | head -n 10000 >"$room/list"
    cd "$room" || return
    attempt script -qec "'$card' sheet list" /dev/null
    ends_with 1
    case $out in *" of 10000 images"*) ;; *) wrong "it shows no progress" ;; esac
    case $out in *"$(totals_of 10000 0 0 10000 1000000000)"*) ;; *) wrong "the totals are: $(tail -n 1 "$room/out")" ;; esac
}

# An unreadable file is refused as 20, and the next one is read.
unreadable() {
    find_nobody
    (umask 077 && cp "$room/halt.img" "$room/shut.img")
    [ "$(id -u)" = 0 ] || chmod 000 "$room/shut.img"
    cd "$room" || return
    attempt "${as_nobody[@]}" "$card" sheet -- shut.img halt.img
    ends_with 1
    writes "refused 20"$'\n'"$halts"$'\n'"$(totals_of 2 1 1 0 0)"
}

# A file that is opened, and whose reading fails.
opened_unread() {
    cd "$room" || return
    attempt "$card" sheet -- /proc/self/mem halt.img
    ends_with 1
    writes "refused 20"$'\n'"$halts"$'\n'"$(totals_of 2 1 1 0 0)"
}

name_with_feed() {
    attempt "$card" sheet -- "$room/a"$'\n'"b"
    could_not "a name with a line feed"
}

named_as_help() {
    cp "$room/halt.img" "$room/-h"
    cd "$room" || return
    attempt "$card" sheet -- -h
    ends_with 0
    writes "$halts"$'\n'"$(totals_of 1 0 1 0 0)"
}

long_list() {
    attempt_line 'exec "$0" sheet - </dev/zero'
    could_not "bytes"
}

# The images that the sheet program is given are those of the sources beside them.
stored_images() {
    local source
    for source in "$root"/crates/card_sheet/data/*.kl; do
        attempt "$card" asm "$source" -
        ends_with 0
        cmp "$room/out" "${source%.kl}.img" || wrong "$source has another image"
    done
}

# README's example is what the command prints.
readme_sheet() {
    local shown
    shown=$(awk '/card sheet -- samples/ { near = 1 } near && /^```/ { if (inside) exit; inside = 1; next } inside' "$root/README.md")
    [ -n "$shown" ] || wrong "README has no example"
    cd "$root" || return
    attempt "$card" sheet -- samples/*.img
    ends_with 1
    writes "$shown"
}

sheet_program_could_not() { # LINE
    find_program card_sheet
    program_could_not "$1"
}

sheet_checks() {
    check no_names -- "sheet: a list of no names"
    check one_name 'halt.img\n' -- "sheet: every image halted is status 0"
    check one_name 'halt.img' -- "sheet: the last name lacks its line feed"
    check one_name "$(long_name 255)" -- "sheet: a name of 255 bytes"
    check odd_name -- "sheet: a name that is not UTF-8"
    check refused_name "$(long_name 256)" -- "sheet: a name of 256 bytes is refused 20"
    check refused_name '\n' -- "sheet: an empty name is refused 20"
    check refused_name 'none.img\n' -- "sheet: a file that is not there is refused 20"
    check refused_name '.\n' -- "sheet: a directory is refused 20"
    check refused_name 'halt.img\0000\n' -- "sheet: a name with a zero byte is refused 20"
    check refused_name 'halt.img\r\n' -- "sheet: CR belongs to the name"
    check overlong_between -- "sheet: a name of 5,000 bytes between two good ones"
    check after_10000 -- "sheet: after 10,000 names the list ends"
    check most_steps -- "sheet: 10,000 images of 100,000 steps, with progress on a terminal"
    check unreadable -- "sheet: a file that may not be read is refused 20, and the next is run"
    check opened_unread -- "sheet: a file that is opened and cannot be read is refused 20"
    check name_with_feed -- "sheet: a name with a line feed cannot be listed"
    check named_as_help -- "sheet: behind -- every word is a name"
    check stored_images -- "the sheet program's images are those of their sources"
    check readme_sheet -- "sheet: README's example is what it prints"
    check long_list -- "sheet: a list that does not end"
    printf 'halt.img\n' >"$room/list"
    check full_output sheet "$room/list" -- "sheet: standard output is full"
    check closed_output sheet "$room/list" -- "sheet: standard output is closed"
    check broken_pipe sheet "$room/list" -- "sheet: a pipe that nobody reads"
    check sheet_program_could_not '</' -- "the sheet program: a directory on standard input"
    check sheet_program_could_not "<'$room/list' >/dev/full" -- "the sheet program: standard output is full"
}
