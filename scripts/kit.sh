# Finds the kit and holds it against the one that the repository is pinned to.
# shellcheck shell=bash disable=SC2154

# Sets `kit_id`, the line that `rt version` prints.
find_kit() {
    [ -z "${kit_id-}" ] || return 0
    command -v rt >/dev/null ||
        missing "the command rt of the Rattle kit was not found" "install the kit and put its bin/ folder on the PATH"
    local pinned
    kit_id=$(rt version) || missing "'rt version' failed, so the kit is not known" "run 'rt version' to see why"
    pinned=$(pinned_kit)
    [ "$kit_id" = "$pinned" ] ||
        say "warning: the kit in use is '$kit_id', and the repository is pinned to '$pinned' (kit.pin)"
}

# The one line of kit.pin: what `rt version` printed of the kit that the repository was proved with.
pinned_kit() { head -n 1 "$root/kit.pin" || missing "cannot read kit.pin" "run card of a whole copy of the repository"; }

# The kit in use, the kit that is pinned, and the commit.
show_versions() {
    local used=none commit
    if command -v rt >/dev/null; then used=$(rt version) || used=none; fi
    commit=$(git -C "$root" rev-parse HEAD 2>/dev/null) || commit=none
    if [ "$commit" != none ] && [ -n "$(git -C "$root" status --porcelain 2>/dev/null)" ]; then commit="$commit, and changes since"; fi
    printf 'kit in use: %s\nkit pinned: %s\ncommit: %s\n' "$used" "$(pinned_kit)" "$commit"
}
