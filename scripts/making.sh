# Proves and compiles what a command needs: one build at a time, with its progress, and its log in a file.
# What is made stands in target/ready/, put there whole when it is done; rt makes it in crates/NAME/out/, and keeps its work there.
# shellcheck shell=bash disable=SC2034,SC2154

# The lock is on the repository's folder, which no build removes. rt inherits it, so it is held for as long as rt runs.
lock_fd=''
lock() {
    [ -z "$lock_fd" ] || return 0
    command -v flock >/dev/null || missing "the command flock was not found" "on Debian: apt-get install util-linux"
    exec {lock_fd}<"$root"
    flock -n "$lock_fd" && return
    say "another command is building in this copy of the repository; waiting for it to end"
    flock "$lock_fd" || missing "the lock on $root could not be had" "look at whether its file system has locks"
}

unlock() {
    exec {lock_fd}<&-
    lock_fd=''
}

# Whether FILE was made by the kit in use and is as new as the crates. What rt made is no part of them, and neither is the time at which it
# made or removed a folder for it.
is_ready() { # FILE
    [ -f "$1" ] && [ "$(cat "$1.kit" 2>/dev/null)" = "$kit_id" ] &&
        [ -z "$(find "$root/crates.txt" -newer "$1" -print && find "$root/crates" -mindepth 2 -name out -prune -o -newer "$1" -print -quit)" ]
}

# The crates of crates.txt that CRATE rests on, and CRATE last: each after those that it rests on, as rt builds them.
crates_below() { # CRATE
    CRATE=$1 awk '
        function visit(name,    i, count, names) {
            if (!(name in rests) || (name in seen)) return
            seen[name] = 1
            count = split(rests[name], names, " ")
            for (i = 1; i <= count; i++) visit(names[i])
            print name
        }
        { sub(/#.*/, ""); at = index($0, ":") }
        at { split(substr($0, 1, at - 1), words, " "); rests[words[1]] = substr($0, at + 1) }
        END { visit(ENVIRON["CRATE"]) }' "$root/crates.txt"
}

# A line for each crate that is proved, until it is ended: rt says in LOG where it begins with one.
watch_crates() { # CRATE LOG
    local -A place=() told=()
    local crate all=0
    for crate in $(crates_below "$1"); do
        all=$((all + 1))
        place[$crate]=$all
    done
    while kill -0 $$ 2>/dev/null; do
        while read -r crate; do
            [ -z "${told[$crate]-}" ] || continue
            told[$crate]=yes
            say "proving ${place[$crate]-?} of $all: $crate"
        done < <(sed -n 's/^rt: chose --jobs [0-9]* for \([A-Za-z0-9_]*\)$/\1/p' "$2")
        sleep 0.2
    done
}

# Whether rt did what it was to do, by its log: `rt run` ends as the program does that it made, and says before that it starts it.
was_made() { # VERB CRATE LOG STATUS
    case $1 in
    run) grep -q "^rt: running out/$2; " "$3" ;;
    *) [ "$4" -eq 0 ] ;;
    esac
}

# Runs `rt VERB` in the folder of CRATE with its log in a file, and with a line of progress a crate where standard error is a terminal.
prove() { # VERB CRATE LOG
    local ended=0
    if [ -t 2 ]; then
        say "proving and compiling $2 with 'rt $1' in crates/$2; from nothing this takes some minutes"
        watch_crates "$2" "$3" {lock_fd}<&- &
        watcher=$!
    else
        say "proving and compiling $2 with 'rt $1' in crates/$2, some minutes from nothing; its log is ${3#"$root"/}"
    fi
    (cd "$root/crates/$2" && rt "$1") </dev/null >"$3" 2>&1 || ended=$?
    if [ -n "$watcher" ]; then
        kill "$watcher" && { wait "$watcher" || true; } 2>/dev/null
        watcher=''
    fi
    was_made "$1" "$2" "$3" "$ended" ||
        missing "'rt $1' in crates/$2 ended with $ended: $(grep -m 1 'error\|: not proved$\|: no proof' "$3" || tail -n 1 "$3")" "its log is $3"
}

# Sets `made` to target/ready/NAME, a copy of what `rt VERB` proved and compiled as out/FROM of CRATE; makes it where it is not there.
make_ready() { # NAME FROM VERB CRATE
    find_kit
    made=$root/target/ready/$1
    ! is_ready "$made" || return 0
    lock
    if ! is_ready "$made"; then # else it was made while this command waited
        if ! { mkdir -p "$root/target/ready" && rm -f "$made" && : >"$made.began" && : >"$made.log"; }; then
            missing "target/ready could not be written" "look at the rights and the room in $root/target"
        fi
        prove "$3" "$4" "$made.log"
        if ! { cp "$root/crates/$4/out/$2" "$made.new" && touch -r "$made.began" "$made.new" &&
            printf '%s\n' "$kit_id" >"$made.kit" && mv -f "$made.new" "$made"; }; then
            missing "target/ready/$1 could not be written" "look at the room on its disk"
        fi
    fi
    unlock
}

# Sets `program` to program NAME. `rt run` makes it, and starts it once on no input.
find_program() { # NAME
    make_ready "$1" "$1" run "$1"
    program=$made
}

# Sets `library` to the archive for C, which is that of crate host_c.
find_library() {
    make_ready libhost.a libhost_c.a lib host_c
    library=$made
}
