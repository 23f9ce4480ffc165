# Finds what a C program over the verified library needs, the library and a compiler, and compiles it.
# Sourced by bench/run.sh, compare/run.sh, interop/run.sh and edges/run.sh, which set `root` and `me`.
# shellcheck shell=bash disable=SC2154
# shellcheck source=scripts/ends.sh
. "$root/scripts/ends.sh"
# shellcheck source=scripts/kit.sh
. "$root/scripts/kit.sh"
# shellcheck source=scripts/making.sh
. "$root/scripts/making.sh"

# Sets `compiler` and `options`, more words for it.
find_tools() {
    compiler='gcc' options=''
    [ "$(uname -m)" = x86_64 ] ||
        missing "the library links only into x86-64 programs, and this is another processor" "use an x86-64, as the kit does"
    command -v "$compiler" >/dev/null || missing "the C compiler gcc was not found" "on Debian: apt-get install gcc libc6-dev"
}

make_folder() { # NAME
    mkdir -p "$root/target/$1" || missing "target/$1 could not be written" "look at the rights and the room in $root/target"
}

# Compiles FILES with the library to target/NAME/NAME, put there whole when it is done, and sets `program`.
build() { # NAME FILES
    program=$root/target/$1/$1
    make_folder "$1"
    say "compiling $1 with $compiler -O3"
    # shellcheck disable=SC2086
    if ! { "$compiler" -O3 -std=c11 -Wall -Wextra $options -I "$root/include" -I "$root/bench" \
        -o "$program.$$" "${@:2}" "$library" && mv -f "$program.$$" "$program"; }; then
        rm -f "$program.$$"
        missing "$compiler could not compile or link $1: its lines above say why" \
            "if the C library is missing, on Debian: apt-get install libc6-dev"
    fi
}
