# What a command reads and writes: read into a folder of its own first, and written whole or not at all.
# shellcheck shell=bash disable=SC2154

# Copies FILE, '-' for standard input, to ROOM/NAME, so that what is judged is what is shown: MOST bytes of it, more than any good one has.
take() { # FILE NAME WHAT MOST
    if [ "$1" = - ]; then
        case $closed in *input*) missing "the $3 cannot be read: standard input is closed" "give a file, or a pipe to read from" ;; esac
        head -c "$4" >"$room/$2" || missing "the $3 on standard input could not be read, or not be kept in $room" "its line above says which"
    elif [ -d "$1" ] || [ ! -r "$1" ]; then
        missing "cannot read the $3 $1" "give a file that is there, or '-' for standard input"
    else
        head -c "$4" -- "$1" >"$room/$2" || missing "the $3 $1 could not be read, or not be kept in $room" "its line above says which"
    fi
}

# Puts ROOM/NAME where FILE says, '-' for standard output: a file whole, or not at all.
put() { # NAME FILE
    if [ "$2" = - ]; then
        need_output
        cat "$room/$1" || missing "standard output could not be written; what it holds is not whole" "look at where it goes"
    elif [ -e "$2" ] && [ ! -f "$2" ]; then
        cat "$room/$1" >"$2" || missing "$2 could not be written" "give a file"
    else
        local to new mode
        to=$(readlink -f -- "$2") || missing "there is no folder for $2" "make it first"
        new=$(mktemp "$to.XXXXXX") || missing "$2 could not be written" "look at the rights of its folder"
        mode=$(stat -c %a -- "$to" 2>/dev/null) || mode=$(printf '%o' $((0666 & ~$(umask))))
        if ! { cat "$room/$1" >"$new" && chmod "$mode" "$new" && mv -f -- "$new" "$to"; }; then
            rm -f -- "$new"
            missing "$2 could not be written, and is as it was" "look at the room on its disk"
        fi
    fi
}
