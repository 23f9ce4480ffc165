# card run, card check, card asm, card dis, card export and card import: a program on one file, and what came of it as a text and a status.
# shellcheck shell=bash disable=SC2154

sample=samples/makers.img
image_most=8273    # bytes: the loader answers of these as of all that follow, and no image is longer than 8,272
source_most=262145 # bytes: a source, or a text of Intel HEX, has at most 262,144, and one more tells that it is longer

# Runs program NAME on ROOM/IN, with its output in ROOM/OUT, what it said in ROOM/said, and its status in `ended`.
launch_on() { # NAME IN OUT [WORDS...]
    local in=$2 out=$3
    find_program "$1"
    shift 3
    ended=0
    "$program" "$@" <"$room/$in" >"$room/$out" 2>"$room/said" || ended=$?
}

# The program neither did its work nor refused: its own sentence, where it has one, and status 4.
failed() { # NAME FILE
    missing "$(head -n 1 "$room/said" | grep . || echo "the program $1 ended with $ended, and did not say what it came to"): $2" \
        "nothing more was done"
}

# What a refusal means, in a sentence.
sentence() { # NUMBER
    case $1 in
    20) echo "the image ends inside a field" ;;
    21) echo "the number of words is not 1 to 2,048" ;;
    22) echo "the image lists more than 16 registers" ;;
    23) echo "the last register that the image lists is 0" ;;
    24) echo "the entry's count is not 1" ;;
    25) echo "the entry is not a memory address" ;;
    26) echo "bytes are left over behind the image" ;;
    50) echo "the line is not in the grammar (docs/GRAMMAR.md)" ;;
    51) echo "the line uses a label that no line defines" ;;
    52) echo "the line defines a label that a line before it defines" ;;
    53) echo "a value is outside its bounds" ;;
    54) echo "a seventeenth bracket is opened inside sixteen" ;;
    55) echo "the line holds a word after the 2,048th" ;;
    60) echo "the line is no record: a colon, pairs of digits as many as its count says, and LF" ;;
    61) echo "the checksum is wrong" ;;
    62) echo "the record's type is none of 00, 01 and 04" ;;
    63) echo "the record has a byte beyond 2,048 words" ;;
    64) echo "the record has a byte that a record before it gives" ;;
    65) echo "there is no end record" ;;
    66) echo "something stands after the end record" ;;
    67) echo "the bytes do not end with a whole word" ;;
    68) echo "no record has data" ;;
    *) echo "docs/REFERENCE.md says what $1 means" ;;
    esac
}

# A line of ROOM/source as it can be shown: no control bytes, and not all of a long one.
show_line() { # LINE
    sed -n "${1}{p;q}" "$room/source" | tr -d '\r' | LC_ALL=C tr -c '[:print:]\t\n' '?' | cut -c 1-200 | sed 's/^/    /'
}

# Says what is wrong with a line, shows it, and ends with status 2.
refuse_line() { # FILE NUMBER LINE
    printf '%s:%s: %s: %s\n' "$1" "$3" "$2" "$(sentence "$2")" >&2 || true
    show_line "$3" >&2 || true
    finish 2
}

# Says why a file is refused that has no line at fault, and ends with status 2.
refuse_whole() { # FILE NUMBER SENTENCE
    printf '%s: %s: %s\n' "$1" "$2" "$3" >&2 || true
    finish 2
}

refuse_image() { # FILE NUMBER
    refuse_whole "$1" "$2" "$(sentence "$2")"
}

refuse_source() { # FILE NUMBER LINE
    [ "$3" -eq 0 ] || refuse_line "$@"
    refuse_whole "$1" "$2" "no line holds a word"
}

refuse_text() { # FILE NUMBER LINE
    [ "$3" -eq 0 ] || refuse_line "$@"
    refuse_image "$1" "$2"
}

# Makes ROOM/image of ROOM/source by PROGRAM; what it refuses is told by REFUSE.
make_image() { # PROGRAM REFUSE FILE [WORDS...]
    local number line tool=$1 refuse=$2 file=$3
    launch_on "$tool" source image "${@:4}"
    if read -r _ number _ line < <(grep -x 'refused [0-9]* line [0-9]*' "$room/said"); then "$refuse" "$file" "$number" "$line"; fi
    if [ "$ended" -ne 0 ] || [ -s "$room/said" ]; then failed "$tool" "$file"; fi
}

# Sets `image` to where the image of FILE goes: beside it, where its name ends in SUFFIX, or to standard output.
beside() { # FILE SUFFIX
    image=-
    [ "$1" = - ] || [ "$1" = "${1%"$2"}" ] || image=${1%"$2"}.img
}

# Reads FILE into ROOM/image; a source, told by its name, is assembled.
take_image() { # FILE
    case $1 in
    *.kl)
        take "$1" source source "$source_most"
        make_image card_asm refuse_source "$1"
        ;;
    *) take "$1" image image "$image_most" ;;
    esac
}

assemble_source() { # SOURCE [IMAGE]
    takes_files asm 1 2 "a SOURCE and perhaps an IMAGE" "$@"
    local image
    beside "$1" .kl
    [ "${2-$image}" != - ] || need_output
    find_room
    take "$1" source source "$source_most"
    make_image card_asm refuse_source "$1"
    put image "${2-$image}"
    finish 0
}

# Sets `entry` to a number as the import program takes it: no zeros in front. One of ten digits or more is beyond every memory, whatever
# it is.
take_entry() { # NUMBER
    case $1 in '' | *[!0-9]*) missing "import takes a whole number after --entry, and '$1' is none" "'card help' lists the commands" ;; esac
    entry=$1
    while [ "$entry" != "${entry#0}" ]; do entry=${entry#0}; done
    [ ${#entry} -lt 10 ] || entry=999999999
    entry=${entry:-0}
}

import_text() { # HEX [IMAGE] [--entry N]
    local files=() image entry=0
    while [ $# -gt 0 ]; do
        case $1 in
        --entry)
            take_entry "${2-}"
            shift
            ;;
        *) files+=("$1") ;;
        esac
        shift
    done
    takes_files import 1 2 "a HEX file, perhaps an IMAGE, and perhaps --entry with a number" "${files[@]}"
    set -- "${files[@]}"
    beside "$1" .hex
    [ "${2-$image}" != - ] || need_output
    find_room
    take "$1" source text "$source_most"
    make_image card_import refuse_text "$1" "$entry"
    put image "${2-$image}"
    finish 0
}

# Writes the words of IMAGE in a form that has no registers and no entry, and says so where the image has them.
rewrite_image() { # COMMAND PROGRAM OUT FORM IMAGE [FILE]
    local number tool=$2 form=$4
    takes_files "$1" 1 2 "an IMAGE and perhaps a $3" "${@:5}"
    set -- "${@:5}"
    [ "${2--}" != - ] || need_output
    find_room
    take "$1" image image "$image_most"
    launch_on "$tool" image text
    if read -r _ number < <(grep -x 'refused [0-9]*' "$room/said"); then refuse_image "$1" "$number"; fi
    if grep -qx 'lost entry' "$room/said"; then say "$1 does not begin at address 0, which $form cannot say"; fi
    if grep -qx 'lost registers' "$room/said"; then say "$1 lists registers, which $form cannot say"; fi
    sed -i '/^lost entry$/d; /^lost registers$/d' "$room/said"
    if [ "$ended" -ne 0 ] || [ -s "$room/said" ]; then failed "$tool" "$1"; fi
    put text "${2--}"
    finish 0
}

disassemble_image() { # IMAGE [SOURCE]
    rewrite_image dis card_dis SOURCE "a source" "$@"
}

export_image() { # IMAGE [HEX]
    rewrite_image export card_export HEX "Intel HEX" "$@"
}

# The one place where it is decided what a run or a check came to, as a status: the program says it as its last line on standard error,
# after the whole text was written; a program that does not come to that could not be run.
verdict() {
    local told
    told=$(sed -n '$s/^status \([0-4]\)$/\1/p' "$room/said")
    sed -i '/^status [0-4]$/d' "$room/said"
    if [ "$ended" -ne 0 ]; then return 4; fi
    return "${told:-4}"
}

run_image() { # [--strict] [FILE]
    local run=card_run word files=() file came=0
    for word in "$@"; do
        if [ "$word" = --strict ]; then run=card_run_strict; else files+=("$word"); fi
    done
    takes_files run 0 1 "--strict or not, and one FILE" "${files[@]}"
    need_output
    file=${files[0]-$root/$sample}
    find_room
    take_image "$file"
    [ "${#files[@]}" -eq 1 ] || say "running $sample"
    launch_on "$run" image output
    verdict || came=$?
    [ "$came" -ne 4 ] || failed "$run" "$file"
    put output -
    finish "$came"
}

check_image() { # FILE
    takes_files check 1 1 "one FILE" "$@"
    local came=0
    need_output
    find_room
    take_image "$1"
    launch_on card_check image output
    verdict || came=$?
    case $came in
    0) put output - ;;
    2) refuse_image "$1" "$(sed -n 's/^refused \([0-9]*\)$/\1/p' "$room/said")" ;;
    *) failed card_check "$1" ;;
    esac
    finish 0
}
