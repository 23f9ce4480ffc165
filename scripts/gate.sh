# card test and card edits: the gate, and the wrong edits that it leaves out.
# shellcheck shell=bash disable=SC2154,SC2164

# The end of a check by rt: 0 all is well, 1 something is not proved, not refused or not told; its other statuses are of rt itself.
finish_as_rt() { # STATUS
    case $1 in
    0) finish 0 ;;
    1 | 3) finish 1 ;;
    *) missing "rt ended with status $1" "its lines above say why" ;;
    esac
}

run_gate() {
    local ended=0
    takes_nothing test "$@"
    need_output
    find_kit
    lock
    print_from "$root/.ci/run" || ended=$?
    finish_as_rt "$ended"
}

# A copy of the crates in ROOM, in which the edits of more-edits/NAME are the must-fail edits of crate NAME. It stands outside the
# repository, where `rt ci` would refuse its files, and has nothing that rt made: rt begins there with what it keeps of the same files.
copy_for_edits() {
    local folder
    tar -C "$root" --exclude=out --exclude=must-fail -cf - crates crates.txt | tar -C "$room" -xf - &&
        for folder in "$root"/more-edits/*/; do
            cp -R "$folder" "$room/crates/$(basename "$folder")/must-fail" || return
        done
}

# Tries them, with rt's own lines shown and what the prover says besides in the log alone; ends as rt does.
show_verdicts() { # [CRATE...]
    rt must-fail "$@" 2>&1 </dev/null | tee "$root/target/edits.log" | grep --line-buffered '^rt: ' || return "${PIPESTATUS[0]}"
}

try_edits() { # [CRATE...]
    local ended=0
    takes_crates edits "$@"
    need_output
    find_kit
    lock
    find_room
    copy_for_edits || missing "a copy of the crates could not be written to $room" "look at the rights and the room there; TMPDIR names another place"
    if ! { mkdir -p "$root/target" && : >"$root/target/edits.log"; }; then
        missing "target/edits.log could not be written" "look at the rights and the room in $root/target"
    fi
    say "trying the edits under more-edits/, each against its whole crate; all of them take some minutes; the log is target/edits.log"
    cd "$room"
    print_from show_verdicts "$@" || ended=$?
    finish_as_rt "$ended"
}
