# Checks of what commands take and of what the pages say of them.
# shellcheck shell=bash disable=SC2016,SC2154

# Help is printed at once, with no kit and nothing built.
helps() { # WORDS...
    attempt env PATH=/usr/bin:/bin timeout 20 "$card" "$@"
    ends_with 0
    case $out in 'card run '*) ;; *) wrong "it wrote: $out" ;; esac
}

refuses_words() { # WORDS...
    attempt timeout 20 "$card" "$@"
    ends_with 4
    writes ''
    [ -n "$err" ] || wrong "it says nothing"
}

# The table of statuses in README, in the header of the script and in `card help`.
one_table() {
    local header readme
    header=$(sed -n 's/^#   \([0-4]\)  \(.*\)/\1 \2/p' "$root/card")
    readme=$(sed -n 's/^| \([0-4]\) | \(.*\) |$/\1 \2/p' "$root/README.md" | head -n 5)
    [ "$(printf '%s\n' "$header" | wc -l)" -eq 5 ] || wrong "the script's header has not five statuses: $header"
    [ "$header" = "$readme" ] || wrong "README has: $readme"
    attempt "$card" help
    [ "$(printf '%s\n' "$out" | sed -n 's/^  \([0-4]\)  \(.*\)/\1 \2/p')" = "$header" ] || wrong "card help has: $out"
}

# The files that a page names: with a folder of the root in front, or as `crate/specs/Module`.
paths_exist() { # PAGE
    local path absent=''
    # shellcheck disable=SC2013
    for path in $(grep -oE '\b(crates|docs|samples|include|examples|scripts|edges|bench|compare)/[A-Za-z0-9_./-]*\.[a-z]+\b' "$root/$1" |
        grep -v 'target/' | sort -u); do
        [ -e "$root/$path" ] || absent="$absent $path"
    done
    for path in $(grep -oE '`[a-z_]+/specs/[A-Za-z/]+' "$root/$1" | tr -d '`' | grep -v '^crates/' | sort -u); do
        [ -e "$root/crates/$path.antt" ] || absent="$absent $path"
    done
    [ -z "$absent" ] || wrong "there is no$absent"
}

versions() {
    local commit changes=''
    commit=$(git -C "$root" rev-parse HEAD 2>/dev/null) || commit=none
    [ -z "$(git -C "$root" status --porcelain 2>/dev/null)" ] || changes=', and changes since'
    attempt "$card" version
    ends_with 0
    writes "kit in use: $(rt version)
kit pinned: $(cat "$root/kit.pin")
commit: $commit$changes"
}

full_check() { # COMMAND
    attempt_line "exec \"\$0\" $1 >/dev/full"
    ends_with 4
    says "standard output could not be written"
}

saying_checks() {
    local command page
    for command in run check sheet asm dis export import test edits bench compare interop claims figures version help edges; do
        check helps "$command" -h -- "$command -h prints help"
        check refuses_words "$command" --no-such-word -- "$command refuses a word that it does not know"
    done
    check refuses_words no_such_command -- "a command that there is not"
    check refuses_words -- "no command"
    for command in claims figures version help; do check full_check "$command" -- "$command: standard output is full"; done
    for page in README.md samples/README.md docs/REFERENCE.md docs/ARCHITECTURE.md; do
        check paths_exist "$page" -- "the files that $page names are there"
    done
    check one_table -- "README, card help and the script have one table of statuses"
    check versions -- "version prints the kit in use, the kit pinned and the commit"
}
