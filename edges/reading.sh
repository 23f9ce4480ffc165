# Checks of reading: what cannot be read is told, with status 4, and is no verdict on an image.
# shellcheck shell=bash disable=SC2016,SC2154

closed_input() { # COMMAND
    attempt_line "exec \"\$0\" $1 - <&-"
    could_not "standard input is closed"
}

directory_read() { # COMMAND
    attempt "$card" "$1" "$room"
    could_not "cannot read"
    attempt_line "exec \"\$0\" $1 - <\"\$1\"" "$room"
    could_not "could not be read"
}

no_file() { # COMMAND
    attempt "$card" "$1" "$room/none.kl"
    could_not "cannot read"
}

no_right() {
    local secret=$room/secret.img
    find_nobody
    (umask 077 && cp "$room/halt.img" "$secret")
    [ "$(id -u)" = 0 ] || chmod 000 "$secret"
    attempt "${as_nobody[@]}" "$card" run "$secret"
    could_not "cannot read"
}

endless_input() {
    attempt_line 'exec "$0" run - </dev/zero'
    ends_with 2
    writes 'refused 21'
}

endless_check() {
    attempt_line 'exec "$0" check - </dev/zero'
    ends_with 2
    says "-: 21: the number of words"
}

# The folder that card works in, with no room left in it.
no_working_room() {
    small_disk 0
    attempt env TMPDIR="$disk" "$card" run "$room/halt.img"
    could_not "could not be"
    [ "$(ls "$disk")" = out ] || wrong "something is left in the working folder: $(ls "$disk")"
}

# card waits for its input when it is ended.
ended_while_reading() {
    local reader fifo=$room/fifo tries=0
    mkfifo "$fifo"
    mkdir "$room/work"
    TMPDIR=$room/work "$card" run - <"$fifo" >/dev/null 2>&1 &
    reader=$!
    exec 8>"$fifo"
    while [ -z "$(ls "$room/work")" ]; do
        sleep 0.1
        tries=$((tries + 1))
        [ "$tries" -lt 300 ] || wrong "it made no working folder"
    done
    kill -TERM "$reader"
    exec 8>&-
    ! wait "$reader" || wrong "it ended with status 0"
    [ -z "$(ls "$room/work")" ] || wrong "something is left in the working folder: $(ls "$room/work")"
}

read_checks() {
    local command
    for command in run check sheet asm dis export import; do
        check closed_input "$command" -- "$command: standard input is closed"
        check directory_read "$command" -- "$command: a directory, by name and on standard input"
        check no_file "$command" -- "$command: a file that is not there"
    done
    check no_right -- "run: a file that may not be read"
    check endless_input -- "run: an input that does not end is judged by its first bytes"
    check endless_check -- "check: an input that does not end is judged by its first bytes"
    check no_working_room -- "run: no room for what is not finished"
    check ended_while_reading -- "run: ended while it reads, it leaves nothing behind"
}
