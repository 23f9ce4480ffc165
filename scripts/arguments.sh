# What each command takes: words that it does not know are refused before anything is read or built.
# shellcheck shell=bash disable=SC2154

# Ends where the words are not LEAST to MOST names of files ('-' among them).
takes_files() { # COMMAND LEAST MOST WHAT WORDS...
    local command=$1 least=$2 most=$3 what=$4 word
    shift 4
    for word in "$@"; do
        case $word in -?*) missing "$command does not know $word" "a file of that name is ./$word; 'card help' lists the commands" ;; esac
    done
    if [ $# -lt "$least" ] || [ $# -gt "$most" ]; then missing "$command takes $what" "'card help' lists the commands"; fi
}

# Ends where the words are not at most two whole numbers.
takes_numbers() { # COMMAND WHAT WORDS...
    local command=$1 what=$2 word
    shift 2
    [ $# -le 2 ] || missing "$command takes $what" "'card help' lists the commands"
    for word in "$@"; do
        case $word in '' | *[!0-9]*) missing "$command takes $what, and '$word' is no whole number" "'card help' lists the commands" ;; esac
    done
}

# Ends where a word is not a crate of crates.txt.
takes_crates() { # COMMAND WORDS...
    local command=$1 word
    shift
    for word in "$@"; do
        case $word in *[!A-Za-z0-9_]* | '') missing "$command takes names of crates, and '$word' is none" "crates.txt lists them" ;; esac
        grep -q "^$word\( [^:]*\)\{0,1\}:" "$root/crates.txt" || missing "$command: there is no crate $word" "crates.txt lists them"
    done
}

takes_nothing() { # COMMAND WORDS...
    [ $# -eq 1 ] || missing "$1 takes nothing more" "'card help' lists the commands"
}
