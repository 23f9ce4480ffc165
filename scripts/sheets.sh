# card sheet: the images that a list names, a line for each, and their totals.
# shellcheck shell=bash disable=SC2154

list_most=67108864 # bytes of a list; 10,000 names of 255 are 2,560,000
names_most=10000

# Puts NAMES into ROOM/list, one a line.
write_list() { # NAMES...
    local name
    for name in "$@"; do
        case $name in *$'\n'*) missing "a name with a line feed cannot stand in a list, which has a name a line" "give the file another name" ;; esac
    done
    : >"$room/list" || missing "the list could not be kept in $room" "look at the room there"
    [ $# -eq 0 ] || printf '%s\n' "$@" >"$room/list" || missing "the list could not be kept in $room" "look at the room there"
}

# The sheet program opens names of UTF-8 alone. In ROOM/list a file of another name gets one, that of a link to it in ROOM/names; a name that is
# refused anyway, longer than 255 bytes or with a zero byte, stays. What grep takes for no line of characters is what is not UTF-8.
link_odd_names() {
    local number name
    { LC_ALL=C.UTF-8 grep -anvx '.*' "$room/list" || true; } | cut -d : -f 1 >"$room/odd"
    [ -s "$room/odd" ] || return 0
    mkdir "$room/names" || missing "the list could not be kept in $room" "look at the room there"
    while IFS= read -r number; do
        ! LC_ALL=C sed -n "${number}p" "$room/list" | grep -aqP '\x00' || continue
        name=$(LC_ALL=C sed -n "${number}p" "$room/list")
        [ "$(printf '%s' "$name" | wc -c)" -le 255 ] || continue
        [ "${name#/}" != "$name" ] || name=$PWD/$name
        ln -s -- "$name" "$room/names/$number" || missing "the list could not be kept in $room" "look at the room there"
        LC_ALL=C sed -i "${number}s#.*#$room/names/$number#" "$room/list" || missing "the list could not be kept in $room" "look at the room there"
    done <"$room/odd"
}

# How many lines of the sheet are written, every two seconds, until it is ended.
watch_sheet() { # NAMES
    while sleep 2 && kill -0 $$ 2>/dev/null; do say "$(wc -l <"$room/output") of $1 images"; done
}

make_sheet() { # [--strict] LIST | [--strict] -- FILES...
    local sheet=card_sheet came=0 names
    if [ "${1-}" = --strict ]; then
        sheet=card_sheet_strict
        shift
    fi
    need_output
    if [ "${1-}" = -- ]; then
        find_room
        write_list "${@:2}"
    else
        takes_files sheet 1 1 "--strict or not, and a LIST of names ('-': standard input), or -- and FILES" "$@"
        find_room
        take "$1" list "list" $((list_most + 1))
        [ "$(wc -c <"$room/list")" -le "$list_most" ] || missing "the list $1 has more than $list_most bytes" "give a list of names, one a line"
    fi
    link_odd_names
    find_program "$sheet"
    if [ -t 2 ]; then
        names=$(grep -ac '' "$room/list" || true)
        : >"$room/output"
        watch_sheet "$((names < names_most ? names : names_most))" &
        watcher=$!
    fi
    launch_on "$sheet" list output
    if [ -n "$watcher" ]; then
        kill "$watcher" && { wait "$watcher" || true; } 2>/dev/null
        watcher=''
    fi
    verdict || came=$?
    [ "$came" -ne 4 ] || failed "$sheet" "the sheet"
    put output -
    if grep -aq "^images $names_most " "$room/output"; then say "a list ends after 10,000 names; what follows them was not run"; fi
    finish "$came"
}
