# card explain, card trace and card map: what happened in a run, in words, step by step, and as a map of its memory.
# shellcheck shell=bash disable=SC2154

number_most=4294967295

# Ends where a word is not a whole number of 32 bits.
takes_number() { # COMMAND OPTION WORD
    case $3 in '' | *[!0-9]*) missing "$1: $2 takes a whole number, and '$3' is none" "'card help' lists the commands" ;; esac
    if [ "${#3}" -gt 10 ] || [ "$3" -gt "$number_most" ]; then missing "$1: $2 takes at most $number_most, and '$3' is more" "'card help' lists the commands"; fi
}

# Takes the words of COMMAND apart: --strict into `mode` (0 or 1), each OPTION with its number into the array `given`, the rest into `files`.
take_words() { # COMMAND "OPTION..." WORDS...
    local command=$1 options=" $2 " word
    shift 2
    mode=0 files=()
    while [ $# -gt 0 ]; do
        word=$1
        shift
        if [ "$word" = --strict ]; then
            mode=1
        elif [[ $word == --* && $options == *" $word "* ]]; then
            [ $# -gt 0 ] || missing "$command: $word takes a whole number" "'card help' lists the commands"
            takes_number "$command" "$word" "$1"
            given[$word]=$1
            shift
        else
            files+=("$word")
        fi
    done
    takes_files "$command" 1 1 "one FILE and its options" "${files[@]}"
}

# Runs program NAME on ROOM/image with WORDS; its output goes on as it comes, and is not kept.
stream() { # NAME WORDS...
    local name=$1
    shift
    find_program "$name"
    ended=0
    "$program" "$@" <"$room/image" 2>"$room/said" || ended=$?
}

explain_image() { # [--budget N] [--strict] FILE
    local -A given=([--budget]=100000)
    local mode files came=0
    take_words explain "--budget" "$@"
    need_output
    find_room
    take_image "${files[0]}"
    stream card_explain "${given[--budget]}" "$mode"
    verdict || came=$?
    [ "$came" -ne 4 ] || failed card_explain "${files[0]}"
    finish "$came"
}

trace_image() { # [--from K] [--steps M] [--strict] FILE
    local -A given=([--from]=0 [--steps]=$number_most)
    local mode files came=0
    take_words trace "--from --steps" "$@"
    need_output
    find_room
    take_image "${files[0]}"
    stream card_trace "${given[--from]}" "${given[--steps]}" "$mode"
    verdict || came=$?
    [ "$came" -ne 4 ] || failed card_trace "${files[0]}"
    finish "$came"
}

# Takes --svg FILE out of the words of card map, into `picture`; the others go into `words`.
take_picture() { # WORDS...
    picture='' words=()
    while [ $# -gt 0 ]; do
        if [ "$1" = --svg ]; then
            [ -n "${2-}" ] || missing "map: --svg takes a FILE, '-' for standard output" "'card help' lists the commands"
            picture=$2
            shift
        else
            words+=("$1")
        fi
        shift
    done
}

# Ends where the map program did not draw: a refused image, or one that could not be drawn.
judge_map() { # FILE
    came=0
    verdict || came=$?
    case $came in
    2) refuse_image "$1" "$(sed -n 's/^refused \([0-9]*\)$/\1/p' "$room/said")" ;;
    4) failed card_map "$1" ;;
    esac
}

map_image() { # [--svg FILE] [--budget N] [--strict] FILE
    local -A given=([--budget]=100000)
    local mode files picture words came
    take_picture "$@"
    take_words map "--budget" "${words[@]}"
    case $picture in '' | -) need_output ;; esac
    find_room
    take_image "${files[0]}"
    if [ -n "$picture" ]; then
        launch_on card_map image picture "${given[--budget]}" "$mode" 1
        judge_map "${files[0]}"
        put picture "$picture"
    else
        stream card_map "${given[--budget]}" "$mode" 0
        judge_map "${files[0]}"
    fi
    finish "$came"
}
