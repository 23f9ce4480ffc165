# How a command begins and ends: its descriptors, what it says, its status, and what goes when it ends.
# Sourced first of all by card, bench/run.sh, compare/run.sh, interop/run.sh and edges/run.sh, which set `me`.
# shellcheck shell=bash disable=SC2154

# A closed descriptor would be given to the next file that is opened. Something else stands there from now on, and what was closed is kept.
closed=''
if ! : 3>&2; then exec 2>/dev/null; fi
if ! { : 3<&0; } 2>/dev/null; then exec </dev/null && closed="$closed input"; fi
if ! { : 3>&1; } 2>/dev/null; then exec >/dev/null && closed="$closed output"; fi

set -euo pipefail
trap '' PIPE # a pipe that nobody reads is a write that fails, and is told as one

# What is said is for people: where it cannot be said, the status still tells.
say() { printf '%s: %s\n' "$me" "$*" >&2 || true; }

# Every end with a status of its own comes through here. An end that does not, by a command that failed in the script, is status 4.
end_status=''
finish() { # STATUS
    end_status=$1
    exit "$1"
}

# What is wrong, and what to do about it; status 4.
missing() { # WHAT HOW
    say "$1"
    say "$2"
    finish 4
}

room='' watcher=''
at_end() {
    local last=$?
    trap - EXIT
    [ -z "$watcher" ] || kill "$watcher" 2>/dev/null || true
    [ -z "$room" ] || rm -rf "$room"
    if [ -z "$end_status" ]; then
        say "a command of the script failed with status $last; its line above, if any, says why"
        end_status=4
    fi
    exit "$end_status"
}
trap at_end EXIT

# Sets `room`, a folder for what is not finished; it goes when the script ends.
find_room() {
    room=$(mktemp -d) || missing "no folder for what is not finished could be made" "look at the room and the rights in ${TMPDIR:-/tmp}"
}

# For a command whose result goes to standard output: asked before anything is built.
need_output() {
    case $closed in *output*) missing "standard output is closed" "give it a file, a pipe or a terminal" ;; esac
}

# Runs a program whose result is what it prints. One that could not print has failed, whatever its own status says.
print_from() { # COMMAND...
    local ends=(0 0)
    "$@" | cat || ends=("${PIPESTATUS[@]}")
    [ "${ends[1]}" -eq 0 ] || missing "standard output could not be written" "look at where it goes"
    return "${ends[0]}"
}
