# Checks of the C edge: the header and the host example in the languages that the header names, and what the header says of the archive.
# shellcheck shell=bash disable=SC2154

example=$root/examples/host.c

# Compiles the example with no warning, and runs it: it prints what the run program must print.
compiles() { # COMPILER WORDS...
    command -v "$1" >/dev/null || skip "$1 is not here"
    "${@}" -Wall -Wextra -Wpedantic -Wconversion -Werror -I "$root/include" -c -o "$room/host.o" "$example" || wrong "it does not compile"
    "$1" -o "$room/host" "$room/host.o" "$library" || wrong "it does not link"
    "$room/host" <"$root/crates/card_run_two/stdin" >"$room/host.out" || true
    cmp "$room/host.out" "$root/crates/card_run_two/stdout" || wrong "it printed something else"
}

# An image of 100 words that isolates one of them a turn: eight steps, then seven a turn, of which the sixth isolates. The 61st stops.
make_turns() {
    {
        printf '  %s\n' 'Const 1 r7' 'Const 4096 r6' 'Const none r2' 'Const none r3' 'Const none r4' 'Const 30 r9' 'Const set + 1 r12' \
            'Const set + 2 r13'
        printf '%s\n' 'again:' '  Store r12 r9' '  Add r9 r7 r9' '  Store r13 r9' '  Const set r1' '  Jal r6' '  Bnz r7, again - .' \
            'none:' '  0' 'set:' '  1'
        printf '  0\n%.0s' {1..84}
    } >"$room/turns.kl"
    "$card" asm "$room/turns.kl" >/dev/null
}

# The rows are shown after every hundred steps, and main's among them: it has lost a word for each isolate so far. What follows them is
# what is printed without them.
rows_shown() {
    local plain shown
    attempt "$root/target/host/host" <"$room/turns.img"
    plain=$out
    attempt "$root/target/host/host" --rows <"$room/turns.img"
    ends_with 1
    shown=$(awk '/^steps / { steps = $2; getline; print steps ": " $0 }' "$room/out" | paste -sd , -)
    [ "$shown" = '100: 0 87 3 0,200: 0 73 3 0,300: 0 59 3 0,400: 0 44 3 0' ] || wrong "it showed main's row as $shown"
    [ "${out#*$'\n'answer }" = "${plain#answer }" ] || wrong "it ended with: $out"
}

sanitized() {
    local folder words
    "$compiler" -g -std=c11 -fsanitize=address,undefined -fno-sanitize-recover=all -I "$root/include" -o "$room/host" "$example" \
        "$library" 2>/dev/null || skip "the compiler has no sanitizers"
    for folder in "$root"/crates/card_run*/; do
        words=()
        case $folder in *strict*) words=(--strict) ;; esac
        attempt "$room/host" "${words[@]}" <"$folder/stdin"
        [ -z "$err" ] || wrong "$err"
        writes "$(cat "$folder/stdout")"
    done
    attempt "$room/host" --rows <"$room/turns.img"
    [ -z "$err" ] || wrong "$err"
}

# The example's own statuses, as those of the run program.
example_status() { # FILE STATUS
    attempt "$root/target/host/host" <"$1"
    ends_with "$2"
}

# A compiler that lays the record out otherwise is refused.
layout_asserted() {
    ! "$compiler" -fpack-struct -fsyntax-only -x c -I "$root/include" "$root/include/kldemuvash.h" 2>"$room/err" || wrong "a packed record is taken"
    grep -q layout "$room/err" || wrong "it was refused by something else: $(cat "$room/err")"
}

needs_of_archive() {
    local needs
    needs=$(nm -u "$library" | awk 'NF == 2 { print $2 }' | sort | tr '\n' ' ')
    [ "$needs" = 'memcpy memset ' ] || wrong "the archive needs: $needs"
}

# The stacks that the header tells of are enough.
stacks_suffice() {
    build stack "$root/edges/stack.c" -lpthread
    attempt "$root/target/stack/stack"
    ends_with 0
}

# 0, 1 and each refusal `SomeName = N` of crate answers are KL_DONE, KL_HALT and KL_SOME_NAME, and the header has no more of them; each
# constant `pub const NAME: u32 = N` there is KL_NAME, too.
answers_agree() {
    local ours header constants
    ours=$(sed -n 's/^pub const \(DONE\|HALT\): u32 = \([0-9]*\);$/KL_\1 \2/p' "$root/crates/answers/src/lib.rt")
    ours+=$'\n'$(sed -n 's/^    \([A-Z][A-Za-z]*\) = \([0-9]*\),$/\1 \2/p' "$root/crates/answers/src/lib.rt" |
        sed 's/\([a-z]\)\([A-Z]\)/\1_\2/g; s/^/KL_/' | tr '[:lower:]' '[:upper:]')
    header=$(sed -n '/^\/\* The answers/,/^};/s/^    \(KL_[A-Z_]*\) = \([0-9]*\).*/\1 \2/p' "$root/include/kldemuvash.h")
    [ -n "$ours" ] || wrong "there are none in the crate"
    [ "$ours" = "$header" ] || wrong "$(diff <(echo "$ours") <(echo "$header") || true)"
    constants=$(sed -n 's/^pub const \([A-Z_]*\): u32 = \([0-9]*\);$/KL_\1 \2/p' "$root/crates/answers/src/lib.rt")
    ! grep -vxF "$header" <<<"$constants" || wrong "a constant of the crate is none of the header's"
}

opcodes_agree() {
    local ours header
    ours=$(sed -n '/^count = /d; s/^\([a-z]*\) = \([0-9]*\)$/\1 \2/p' "$root/crates/common/specs/Opcodes.antt")
    header=$(sed -n 's/^    KL_OP_\([A-Z]*\) = \([0-9]*\).*/\1 \2/p' "$root/include/kldemuvash.h" | tr '[:upper:]' '[:lower:]')
    [ -n "$ours" ] || wrong "there are none in the crate"
    [ "$ours" = "$header" ] || wrong "$(diff <(echo "$ours") <(echo "$header") || true)"
}

tools_found() { (find_tools) 2>"$room/err" || skip "$(head -n 1 "$room/err")"; }

host_checks() {
    local language before=$skipped
    check answers_agree -- "the header's answers are those of crate answers"
    check opcodes_agree -- "the header's opcodes are those of the definitions"
    check tools_found -- "a C compiler for the checks that follow"
    [ "$skipped" -eq "$before" ] || return 0
    find_tools
    find_library
    build host "$example"
    make_turns
    for language in c99 c11 c17; do
        check compiles "$compiler" "-std=$language" -- "examples/host.c as $language, with no warning"
    done
    for language in c++11 c++17 c++20; do
        check compiles g++ -x c++ "-std=$language" -- "examples/host.c as $language, with no warning"
    done
    check sanitized -- "examples/host.c with the sanitizers for addresses and undefined behaviour"
    check example_status "$room/halt.img" 0 -- "examples/host.c: halted is status 0"
    check example_status "$room/eleven.img" 1 -- "examples/host.c: stopped is status 1"
    check example_status /dev/null 2 -- "examples/host.c: refused is status 2"
    check example_status "$room/loop.img" 3 -- "examples/host.c: a used budget is status 3"
    check example_status "$root" 4 -- "examples/host.c: a directory on standard input is status 4"
    check rows_shown -- "examples/host.c: with --rows the rows are shown after every hundred steps"
    check layout_asserted -- "a record that is laid out otherwise does not compile"
    check stacks_suffice -- "kl_assemble and kl_import run in threads with the stacks that the header tells of"
    check needs_of_archive -- "the archive needs memcpy and memset, and nothing else"
}
