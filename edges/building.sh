# Checks of building, in a copy of the repository that has what is proved already: two at once, what cannot be built, the kit.
# shellcheck shell=bash disable=SC2016,SC2154

# Sets `card` to that of a fresh copy without what rt made, in which the run program is still to be made: its source has a remark more.
copy_repository() {
    local copy=$room/copy
    rm -rf "$copy"
    mkdir -p "$copy/target"
    tar -C "$root" --exclude=out -cf - card scripts crates crates.txt kit.pin samples | tar -C "$copy" -xf -
    echo "// a copy for a check" >>"$copy/crates/card_run/src/main.rt"
    chmod -R go+rX "$copy"
    card=$copy/card
}

# The same with the libraries that are proved already, so that the run program alone is to be proved.
copy_proofs() {
    local crate
    copy_repository
    for crate in $(crates_below card_run); do
        [ -d "$root/crates/$crate/out/rlib" ] || continue
        mkdir "$room/copy/crates/$crate/out"
        cp -R "$root/crates/$crate/out/rlib" "$room/copy/crates/$crate/out/"
    done
}

# How many lines of FILE have TEXT.
lines_with() { # FILE TEXT
    grep -cF -e "$2" "$1" || true
}

# Two runs where the program must be built first: both give their result, one builds, one waits and says so.
two_at_once() {
    local first second
    copy_proofs
    timeout -k 5 600 "$card" run "$room/eleven.img" >"$room/out.1" 2>"$room/err.1" &
    first=$!
    timeout -k 5 600 "$card" run "$room/eleven.img" >"$room/out.2" 2>"$room/err.2" &
    second=$!
    came=0 && wait "$first" || came=$?
    [ "$came" -eq 1 ] || wrong "the first ended with $came: $(cat "$room/err.1")"
    came=0 && wait "$second" || came=$?
    [ "$came" -eq 1 ] || wrong "the second ended with $came: $(cat "$room/err.2")"
    grep -q '^answer 11 ' "$room/out.1" || wrong "the first wrote: $(cat "$room/out.1")"
    cmp -s "$room/out.1" "$room/out.2" || wrong "the second wrote: $(cat "$room/out.2")"
    cat "$room/err.1" "$room/err.2" >"$room/err"
    [ "$(lines_with "$room/err" 'proving and compiling')" = 1 ] || wrong "not one of them built: $(cat "$room/err")"
    [ "$(lines_with "$room/err" 'waiting for it')" = 1 ] || wrong "not one of them said that it waits: $(cat "$room/err")"
    [ "$(wc -l <"$room/err")" -eq 2 ] || wrong "they said more than two lines: $(cat "$room/err")"
    cmp -s "$room/copy/target/ready/card_run" "$root/target/ready/card_run" || wrong "the copy made other bytes of the same program"
}

# On a terminal, a line for each crate that is proved.
progress_shown() {
    local all
    command -v script >/dev/null || skip "the command script, which makes a terminal, is not here"
    copy_proofs
    all=$(crates_below card_run | wc -l)
    attempt script -qec "'$card' run '$room/eleven.img'" /dev/null
    case $out in *"proving $all of $all: card_run"*) ;; *) wrong "it wrote: $out" ;; esac
    case $out in *logic=proved*) wrong "the prover's log is shown" ;; esac
}

# A program that cannot be proved: said, with the log, and an older program is not run in its place.
not_proved() {
    copy_proofs
    mkdir -p "$room/copy/target/ready"
    cp "$root/target/ready/card_run" "$room/copy/target/ready/"
    cp "$root/target/ready/card_run.kit" "$room/copy/target/ready/"
    sed -i 's/run_input(rt, false)/run_input(rt, 0)/' "$room/copy/crates/card_run/src/main.rt"
    attempt "$card" run "$room/eleven.img"
    could_not "'rt run' in crates/card_run ended with 1: "
    says "its log is $room/copy/target/ready/card_run.log"
    grep -q error "$room/copy/target/ready/card_run.log" || wrong "the log does not have the error"
}

# rt fails as it should where it cannot write, and what it made is not half there where it cannot be kept.
folder_full() { # FOLDER
    copy_proofs
    small=$room/copy/$1
    mkdir -p "$small"
    mount -t tmpfs -o size=16k none "$small" 2>/dev/null || skip "no small disk can be mounted here, which needs root"
    trap 'umount "$small"' EXIT
    attempt "$card" run "$room/eleven.img"
    ends_with 4
    writes ''
}

target_without_right() {
    find_nobody
    copy_repository
    [ "$(id -u)" = 0 ] || chmod 555 "$room/copy/target"
    attempt "${as_nobody[@]}" "$card" run "$room/eleven.img"
    could_not "target/ready could not be written"
}

# What was built needs no right to target/.
ready_without_right() {
    find_nobody
    attempt "${as_nobody[@]}" "$card" run "$room/eleven.img"
    ends_with 1
}

no_kit() {
    attempt env PATH=/usr/bin:/bin "$card" run "$room/eleven.img"
    [ "$came" -ne 1 ] || skip "rt is in /usr/bin or /bin here"
    could_not "the command rt of the Rattle kit was not found"
}

# Another kit than the one that the repository is pinned to is told, and used.
another_kit() {
    copy_repository
    cp -R "$root/target/ready" "$room/copy/target/"
    touch "$room"/copy/target/ready/*
    echo "another kit" >"$room/copy/kit.pin"
    attempt "$card" run "$room/eleven.img"
    ends_with 1
    says "the repository is pinned to 'another kit'"
}

# card test over a gate that only ends with a status of rt's.
gate_status() { # OF-RT STATUS
    copy_repository
    mkdir "$room/copy/.ci"
    printf '#!/bin/sh\nexit %s\n' "$1" >"$room/copy/.ci/run"
    chmod +x "$room/copy/.ci/run"
    attempt "$card" test
    ends_with "$2"
}

# A clone, in which nothing is made, gives the same bytes of the run program and of the archive.
clone_gives_the_same() {
    [ "$clone" = yes ] || skip "it may take some minutes; card edges --clone makes it"
    [ -z "$(git -C "$root" status --porcelain crates crates.txt 2>&1)" ] || skip "the crates here are not those of the last commit"
    git clone -q "$root" "$room/clone"
    (cd "$room/clone/crates/card_run" && rt run && cd ../host_c && rt lib) >"$room/clone.log" 2>&1 </dev/null ||
        wrong "the clone is not proved: $(tail -n 1 "$room/clone.log")"
    cmp "$room/clone/crates/card_run/out/card_run" "$root/target/ready/card_run" || wrong "the programs differ"
    cmp "$room/clone/crates/host_c/out/libhost_c.a" "$root/target/ready/libhost.a" || wrong "the archives differ"
}

building_checks() {
    check two_at_once -- "two runs at once where the program must be built first"
    check progress_shown -- "a line of progress a crate on a terminal"
    check not_proved -- "a program that is not proved"
    check folder_full target -- "no room in target/"
    check folder_full crates/card_run/out -- "no room for what rt makes"
    check target_without_right -- "no right to write to target/"
    check ready_without_right -- "no right to write to target/, and nothing to build"
    check no_kit -- "no kit"
    check another_kit -- "another kit than the pinned one"
    check gate_status 0 0 -- "test: the gate passed is status 0"
    check gate_status 1 1 -- "test: something is not proved is status 1"
    check gate_status 2 4 -- "test: rt itself failed is status 4"
    check gate_status 3 1 -- "test: the prover could not tell is status 1"
    [ "$clone" = no ] || find_library
    check clone_gives_the_same -- "two clones give the same bytes of program and archive"
}
