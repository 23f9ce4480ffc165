# Checks of card explain, card trace and card map: their statuses, their words, and output that cannot be written.
# shellcheck shell=bash disable=SC2016,SC2154

explain_status() { # FILE STATUS FIRST-WORDS
    attempt "$card" explain "$1"
    ends_with "$2"
    case $out in "$3"*) ;; *) wrong "it should write '$3', and wrote: $out" ;; esac
}

explain_budget() {
    attempt "$card" explain --budget 3 "$root/samples/makers.img"
    ends_with 3
    case $out in 'answer 0 after 3 steps, at pc 4097'*) ;; *) wrong "it wrote: $out" ;; esac
}

traces_part() {
    attempt "$card" trace --from 20 --steps 2 "$root/samples/makers.img"
    ends_with 3
    writes '20: 13 of 0: Store r6 r7; [17] = 42
21: 14 of 0: Const 33 r6; r6 = 33'
}

# A run that ends before the first step that is asked for is told by the step that ended it.
traces_past_the_end() {
    attempt "$card" trace --from 100 "$root/samples/one.img"
    ends_with 1
    case $out in '3: 3 of 0: 0x00000007; answer 16:'*) ;; *) wrong "it wrote: $out" ;; esac
}

# The first lines of a long trace are there before it ends, and a reader that goes away ends it.
trace_is_read_in_part() {
    attempt bash -c '"$0" trace "$1" | head -n 2; exit "${PIPESTATUS[0]}"' "$card" "$room/loop.kl"
    ends_with 4
    says "the text could not be written"
    [ "$(printf '%s\n' "$out" | wc -l)" -eq 2 ] || wrong "it wrote: $out"
}

untold() { # COMMAND FILE
    attempt_line "exec \"\$0\" $1 \"\$1\" >/dev/full" "$2"
    ends_with 4
    says "the text could not be written"
}

map_status() { # FILE STATUS FIRST-WORDS
    attempt "$card" map "$1"
    ends_with "$2"
    case $out in "$3"*) ;; *) wrong "it should write '$3', and wrote: $out" ;; esac
}

map_refuses() {
    attempt "$card" map "$root/README.md"
    ends_with 2
    says "README.md: 21: "
    writes ''
}

# A picture has the status of its run, says nothing, and is whole.
draws_picture() {
    attempt "$card" map --svg "$room/map.svg" "$root/samples/makers.img"
    ends_with 1
    writes ''
    [ "$(tail -n 1 "$room/map.svg")" = '</svg>' ] || wrong "the picture is not whole"
    [ "$(grep -c '<title>word ' "$room/map.svg")" -eq 34 ] || wrong "the picture should have 34 words"
}

# An old picture stays where no new one can be drawn.
old_picture_stays() { # FILE STATUS
    printf 'old\n' >"$room/old.svg"
    attempt "$card" map --svg "$room/old.svg" "$1"
    ends_with "$2"
    [ "$(cat "$room/old.svg")" = old ] || wrong "the old picture is gone"
}

picture_on_full_device() {
    attempt "$card" map --svg /dev/full "$root/samples/one.img"
    ends_with 4
    says "/dev/full could not be written"
}

# A new picture where there is no room: the old file stays, and nothing else is left.
picture_on_full_disk() {
    small_disk 0
    attempt "$card" map --svg "$disk/out" "$root/samples/one.img"
    could_not "and is as it was"
    [ "$(ls "$disk")" = out ] || wrong "something is left on the disk: $(ls "$disk")"
    [ "$(tr -d '\000' <"$disk/out" | wc -c)" -eq 0 ] || wrong "the old picture was changed"
}

map_is_read_in_part() {
    attempt bash -c '{ sleep 1; "$0" map "$1"; } | :; exit "${PIPESTATUS[0]}"' "$card" "$root/samples/makers.img"
    ends_with 4
    says "the map could not be written"
}

telling_checks() {
    check explain_status "$root/samples/makers.kl" 1 'answer 7 after 22 steps, at pc 15' -- "explain tells a stop, of a source"
    check explain_status "$root/samples/one.img" 1 'answer 16 after 3 steps, at pc 3: a stray bit' -- "explain tells a stray bit"
    check explain_status "$root/samples/lesson.img" 0 'answer 1 after ' -- "explain tells a Halt"
    check explain_status "$root/README.md" 2 'refused 21: the number of words, at byte 0' -- "explain tells the field of a refused image"
    check explain_budget -- "explain takes a budget"
    check traces_part -- "trace takes its first step and how many"
    check traces_past_the_end -- "trace from behind the end tells the step that ended the run"
    check trace_is_read_in_part -- "a trace whose reader goes away ends with 4"
    check untold explain "$root/samples/one.img" -- "explain on a full device"
    check untold trace "$root/samples/one.img" -- "trace on a full device"
    check refuses_words explain -- "explain takes a FILE"
    check refuses_words explain --budget "$root/samples/one.img" -- "a budget is a whole number"
    check refuses_words explain --budget 4294967296 "$root/samples/one.img" -- "a budget has 32 bits"
    check refuses_words trace --budget 1 "$root/samples/one.img" -- "trace has no budget"
    check map_status "$root/samples/makers.kl" 1 'answer 7 after 22 steps, at pc 15; N = 34' -- "map draws a stop, of a source"
    check map_status "$root/samples/lesson.img" 0 'answer 1 after ' -- "map draws a Halt"
    check map_refuses -- "map says why an image is refused, and draws nothing"
    check draws_picture -- "map writes a picture"
    check old_picture_stays "$root/README.md" 2 -- "a refused image leaves an old picture as it was"
    check old_picture_stays "$room/none.img" 4 -- "an image that is not there leaves an old picture as it was"
    check picture_on_full_device -- "a picture on a full device"
    check picture_on_full_disk -- "a picture on a full disk leaves the old one as it was"
    check map_is_read_in_part -- "a map whose reader goes away ends with 4"
    check refuses_words map -- "map takes a FILE"
    check refuses_words map "$root/samples/one.img" --svg -- "a picture goes into a FILE"
    check refuses_words map --steps 1 "$root/samples/one.img" -- "map has no number of steps"
}
