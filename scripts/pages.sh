# card claims and card figures: what the pages cite is in the tree, and the size of the tree.
# shellcheck shell=bash disable=SC2154,SC2164

# Whether FILE has NAME: a definition or a theorem of a file of definitions by its first line, else words that stand there.
has_name() { # FILE NAME
    case $1 in
    *.antt) NAME=$2 awk '
        { sub(/^ +/, ""); while (sub(/^(pub|abbrev|unfoldable|record|data) +/, "")) continue }
        $1 == ENVIRON["NAME"] && ($2 == ":" || $2 ~ /^\(/ || $2 == "where") { found = 1; exit }
        END { exit !found }' "$1" ;;
    *) grep -qwF -e "$2" "$1" ;;
    esac
}

# The lines `path: name` of the block of names in docs/CLAIMS.md.
claimed_names() { awk '/^```/ { inside = ($0 == "```names"); next } inside && NF' "$root/docs/CLAIMS.md"; }

# The same of what docs/REFERENCE.md cites: `rules/Checks: verdict`, `returns` are two names of Checks.antt somewhere in specs/ or proofs/ of
# crates/rules, and `rules/Rest` is a file.
reference_names() {
    local crate module name path
    awk -F '`' '/^Stated by |proved in / {
            crate = ""
            for (i = 2; i <= NF; i += 2)
                if ($i ~ /^[a-z_]+\/[A-Z][A-Za-z]*(: .*)?$/) {
                    crate = module = $i; name = "file"
                    if (sub(/^.*: /, "", module)) name = module
                    module = $i; sub(/^[^\/]*\//, "", module); sub(/:.*/, "", module); sub(/\/.*/, "", crate)
                    print crate, module, name
                } else if (crate != "" && $i ~ /^[A-Za-z_-]+$/) print crate, module, $i
        }' "$root/docs/REFERENCE.md" |
        while read -r crate module name; do
            path=$(cd "$root/crates/$crate" && find . -path ./out -prune -o -name "$module.antt" -print)
            printf 'crates/%s/%s: %s\n' "$crate" "${path:-./specs/$module.antt}" "$name"
        done
}

# Each line `path: name` of both; the name `file` is the file itself.
check_claims() {
    local path name count=0 absent=0
    for path in docs/CLAIMS.md docs/REFERENCE.md; do
        [ -r "$root/$path" ] || missing "cannot read $path" "run card of a whole copy of the repository"
    done
    while IFS= read -r line; do
        path=${line%%: *} name=${line#*: } count=$((count + 1))
        if [ ! -f "$root/$path" ]; then
            printf 'no file: %s\n' "$line"
        elif [ "$name" != file ] && ! has_name "$root/$path" "$name"; then
            printf 'no such name: %s\n' "$line"
        else
            continue
        fi
        absent=$((absent + 1))
    done < <(claimed_names && reference_names)
    [ "$count" -gt 0 ] || missing "docs/CLAIMS.md has no block of names" "the block starts with \`\`\`names"
    printf 'claims: %d names, %d missing\n' "$count" "$absent"
    check_requires && [ "$absent" -eq 0 ]
}

# Every public function of every library: a requires stands between its name and its body.
check_requires() {
    local lib
    for lib in "$root"/crates/*/src/lib.rt; do
        find "$(dirname "$lib")" -name '*.rt' -exec awk -v root="$root/" '
            /^ *(pub(\([a-z]+\))? )?(extern "C" )?fn / { open = /^ *pub (extern "C" )?fn /; name = $0; count += open }
            open && /^ *requires / { sub(root, "", FILENAME); printf "a public function with a requires: %s:%s\n", FILENAME, name; bad++ }
            END { print count + 0, bad + 0 >"/dev/stderr" }' {} + 3>&1 1>&2 2>&3
    done | awk '
        { count += $1; bad += $2 }
        END { printf "claims: %d public functions, %d with a requires\n", count, bad; exit bad > 0 }'
}

# A row for each crate of crates.txt, and their sum. Laws are the public statements outside records.
figures() {
    local crate
    cd "$root"
    printf '| crate | lines of source | definitions | laws | lines of both | proofs by hand | lines of these | must-fail edits |\n'
    printf '|---|---|---|---|---|---|---|---|\n'
    sed -n 's/^\([A-Za-z0-9_]*\)\( [^:]*\)\{0,1\}:.*/\1/p' crates.txt | while IFS= read -r crate; do
        find "crates/$crate" -name out -prune -o -type f \( -name '*.rt' -o -name '*.antt' -o -name '*.edit' \) -exec awk '
            { folder = FILENAME; sub(/^crates\/[^\/]*\//, "", folder); sub(/\/.*/, "", folder) }
            FNR == 1 { files[folder]++; fields = 0 }
            { lines[folder]++ }
            folder != "specs" || !NF { next }
            { match($0, /^ */) }
            fields && RLENGTH > depth { next }
            { fields = 0 }
            /^ *(abbrev|unfoldable) / { definitions++ }
            /^ *(pub )?(record|data) [^{]/ { definitions++; fields = 1; depth = RLENGTH }
            /^ *pub [^ ]+ :/ { laws++ }
            END {
                print lines["src"] + 0, definitions + 0, laws + 0, lines["specs"] + 0, files["proofs"] + 0, lines["proofs"] + 0,
                    files["must-fail"] + 0
            }' {} + |
            sed "s/^/$crate /"
    done | awk '
        function row(name, values,    i, line) { line = "| " name " |"; for (i = 2; i <= 8; i++) line = line " " values[i] " |"; print line }
        { for (i = 2; i <= 8; i++) { one[i] = $i; all[i] += $i } row($1, one) }
        END { row("all", all) }'
}

