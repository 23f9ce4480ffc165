# What the checks share: images to run, a command tried, what is expected of it, and the counts.
# shellcheck shell=bash disable=SC2034,SC2154

passed=0 failed=0 skipped=0
card=$root/card

# Runs a check in a shell of its own and prints its line. It ends where an expectation fails (`wrong`) or it cannot be made (`skip`).
check() { # FUNCTION [WORDS...] -- TITLE
    local words=() reason ended=0
    while [ "$1" != -- ]; do
        words+=("$1")
        shift
    done
    reason=$("${words[@]}" 2>&1) || ended=$?
    case $ended in
    0) passed=$((passed + 1)) && printf 'pass  %s\n' "$2" ;;
    77) skipped=$((skipped + 1)) && printf 'skip  %s: %s\n' "$2" "$reason" ;;
    *) failed=$((failed + 1)) && printf 'FAIL  %s: %s\n' "$2" "${reason:-status $ended}" ;;
    esac
}

wrong() { # WHAT
    printf '%s\n' "$1"
    exit 1
}

skip() { # WHY
    printf '%s\n' "$1"
    exit 77
}

# Runs a command for at most five minutes; what it wrote is in `out`, what it said in `err`, its status in `came`.
attempt() { # COMMAND...
    came=0
    timeout -k 5 300 "$@" >"$room/out" 2>"$room/err" || came=$?
    out=$(cat "$room/out") err=$(cat "$room/err")
}

# The same of a line for sh, in which "$0" is card and "$1" and so on are the words.
attempt_line() { # LINE WORDS...
    attempt sh -c "$1" "$card" "${@:2}"
}

ends_with() { # STATUS
    [ "$came" -eq "$1" ] || wrong "the status is $came and should be $1; it said: $err"
}

says() { # TEXT
    case $err in *"$1"*) ;; *) wrong "it should say '$1', and said: $err" ;; esac
}

writes() { # TEXT
    [ "$out" = "$1" ] || wrong "it should write '$1', and wrote: $out"
}

# Status 4, a sentence with TEXT, and nothing written.
could_not() { # TEXT
    ends_with 4
    says "$1"
    writes ''
}

# A disk with one page of memory, most of it taken by the file `out`, until this check ends: sets `disk`.
small_disk() { # ROOM, in bytes
    local page
    page=$(getconf PAGESIZE)
    disk=$room/disk
    mkdir -p "$disk"
    mount -t tmpfs -o "size=$page" none "$disk" 2>/dev/null || skip "no small disk can be mounted here, which needs root"
    trap 'umount "$disk"' EXIT
    head -c $((page - $1)) /dev/zero >"$disk/out"
}

# Sets `as_nobody`, the words that run a command with no right to what root has. Another user than root needs none.
find_nobody() {
    as_nobody=()
    [ "$(id -u)" = 0 ] || return 0
    as_nobody=(setpriv --reuid=65534 --regid=65534 --clear-groups)
    "${as_nobody[@]}" test -r "$card" 2>/dev/null || skip "root cannot run card as nobody here"
}

# A folder for the checks, the images that they run, and the programs, so that no check but those of building waits for one.
prepare() {
    local name
    find_kit
    find_room
    chmod 711 "$room"
    printf '%s\n' '  Const 99 r1' '  Const 4097 r4' '  Jal r4' '  Halt' >"$room/eleven.kl"
    printf '%s\n' 'again:' '  Const 1 r1' '  Bnz r1, again - .' >"$room/loop.kl"
    printf '%s\n' '  Halt' >"$room/halt.kl"
    printf '%s\n' '  Jump' >"$room/bad.kl"
    for name in card_asm card_dis card_export card_import card_run card_check card_sheet; do find_program "$name"; done
    for name in eleven loop halt; do "$card" asm "$room/$name.kl" >/dev/null; done
    chmod -R go+rX "$room"
}
