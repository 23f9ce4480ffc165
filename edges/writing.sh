# Checks of the statuses, and of writing: what cannot be written is told, with status 4; a file is written whole or is as it was.
# shellcheck shell=bash disable=SC2016,SC2154

run_status() { # FILE STATUS FIRST-WORDS
    attempt "$card" run "$1"
    ends_with "$2"
    case $out in "$3"*) ;; *) wrong "it should write '$3', and wrote: $out" ;; esac
}

refused_source() {
    attempt "$card" run "$room/bad.kl"
    ends_with 2
    says "bad.kl:1: 50:"
    writes ''
}

check_status() { # FILE STATUS TEXT SAID
    attempt "$card" check "$1"
    ends_with "$2"
    writes "$3"
    says "$4"
}

full_output() { # COMMAND FILE
    attempt_line "exec \"\$0\" $1 \"\$1\" >/dev/full" "$2"
    ends_with 4
    says "standard output could not be written"
}

closed_output() { # COMMAND FILE
    attempt_line "exec \"\$0\" $1 \"\$1\" >&-" "$2"
    could_not "standard output is closed"
}

# An image that answers 11, where 8 bytes are left: they read as a Halt, and the status does not.
nearly_full_disk() {
    small_disk 8
    attempt_line 'exec "$0" run "$1" >>"$2"' "$room/eleven.img" "$disk/out"
    could_not "standard output could not be written"
    [ "$(tail -c 8 "$disk/out")" = 'answer 1' ] || wrong "the disk has something else: $(tail -c 8 "$disk/out")"
}

# A new image where there is no room: the old one stays, and nothing else is left.
image_on_full_disk() {
    small_disk 0
    attempt "$card" asm "$room/halt.kl" "$disk/out"
    could_not "and is as it was"
    [ "$(ls "$disk")" = out ] || wrong "something is left on the disk: $(ls "$disk")"
    [ "$(tr -d '\000' <"$disk/out" | wc -c)" -eq 0 ] || wrong "the old image was changed"
}

refused_keeps_image() {
    printf old >"$room/bad.img"
    attempt "$card" asm "$room/bad.kl"
    ends_with 2
    [ "$(cat "$room/bad.img")" = old ] || wrong "the old image was changed"
}

# A pipe that nobody reads any more.
broken_pipe() { # COMMAND FILE
    came=0
    { sleep 0.3; "$card" "$1" "$2" 2>"$room/err" || came=$?; echo "$came" >"$room/came"; } | :
    came=$(cat "$room/came") err=$(cat "$room/err")
    ends_with 4
    says "standard output could not be written"
}

# The reader leaves after three bytes: all was written before, or the write failed.
three_bytes() {
    attempt bash -c '"$0" run "$1" | head -c 3; echo " ${PIPESTATUS[0]}"' "$card" "$room/eleven.img"
    case $out in 'ans 1' | 'ans 4') ;; *) wrong "three bytes and the status 1 or 4 were due: $out" ;; esac
}

# What is said is lost, and the result is not.
no_errors() { # LINE
    attempt_line "exec \"\$0\" run \"\$1\" $1" "$room/eleven.img"
    ends_with 1
    case $out in 'answer 11 '*) ;; *) wrong "it wrote: $out" ;; esac
}

# The run program by itself, as a host starts it. Its own status is 0 always, and its last line on standard error tells how it ended.
program_status() { # FILE STATUS
    attempt "$program" <"$1"
    ends_with 0
    [ "$err" = "status $2" ] || wrong "it says: $err"
}

program_could_not() { # LINE
    attempt sh -c "shift; exec \"\$@\" $1" sh - "$program"
    ends_with 0
    case $err in
    [a-z]*$'\n''status 4') ;;
    *) wrong "it says: $err" ;;
    esac
}

write_checks() {
    local command
    check run_status "$room/halt.img" 0 'answer 1 ' -- "run: halted is status 0"
    check run_status "$room/eleven.img" 1 'answer 11 ' -- "run: stopped is status 1"
    check run_status /dev/null 2 'refused 20' -- "run: refused is status 2"
    check refused_source -- "run: a refused source is status 2, with its line"
    check run_status "$room/loop.kl" 3 'answer 0 steps 100000 ' -- "run: a used budget is status 3"
    check check_status "$room/halt.img" 0 '1 words' '' -- "check: N and status 0"
    check check_status "$room/loop.kl" 0 '2 words' '' -- "check: a source is assembled first"
    check check_status /dev/null 2 '' '20: the image ends inside a field' -- "check: refused is status 2, with its sentence"
    check check_status "$room/bad.kl" 2 '' 'bad.kl:1: 50:' -- "check: a refused source is status 2, with its line"
    for command in run check dis export; do
        check full_output "$command" "$room/eleven.img" -- "$command: standard output is full"
        check closed_output "$command" "$room/eleven.img" -- "$command: standard output is closed"
        check broken_pipe "$command" "$room/eleven.img" -- "$command: a pipe that nobody reads"
    done
    check nearly_full_disk -- "run: 8 bytes are left on the disk"
    check image_on_full_disk -- "asm: no room for the image, and the old one stays"
    check refused_keeps_image -- "asm: a refused source leaves an old image as it was"
    check three_bytes -- "run: a reader that leaves after three bytes"
    check no_errors '2>&-' -- "run: standard error is closed"
    check no_errors '2>/dev/full' -- "run: standard error is full"
}

program_checks() {
    find_program card_run
    check program_status "$room/halt.img" 0 -- "the run program: halted is told as status 0"
    check program_status "$room/eleven.img" 1 -- "the run program: stopped is told as status 1"
    check program_status /dev/null 2 -- "the run program: refused is told as status 2"
    check program_status "$room/loop.img" 3 -- "the run program: a used budget is told as status 3"
    check program_could_not '<&-' -- "the run program: standard input is closed"
    check program_could_not '</' -- "the run program: a directory on standard input"
    check program_could_not "<'$room/halt.img' >&-" -- "the run program: standard output is closed"
    check program_could_not "<'$room/halt.img' >/dev/full" -- "the run program: standard output is full"
}
