#!/usr/bin/env bash
# Makes reading, writing and building fail, and checks what is said, the status and what is left: edges/run.sh [--clone]
# A line for each check, `pass`, `FAIL` with what was wrong, or `skip` with why; the last line counts them.
# shellcheck disable=SC2034,SC2154
set -euo pipefail
root=$(cd "$(dirname "${BASH_SOURCE[0]}")/.." && pwd)
me=edges
# shellcheck source=bench/tools.sh
. "$root/bench/tools.sh"
for part in checking reading writing exporting importing sheets building saying telling hosts; do
    # shellcheck source=/dev/null
    . "$root/edges/$part.sh"
done

clone=no
case $#:${1-} in
0:) ;;
1:--clone) clone=yes ;;
*) missing "edges takes --clone or nothing" "'card help' lists the commands" ;;
esac

prepare
read_checks
write_checks
export_checks
import_checks
program_checks
sheet_checks
building_checks
saying_checks
telling_checks
host_checks
printf '%d passed, %d failed, %d skipped\n' "$passed" "$failed" "$skipped"
[ "$failed" -eq 0 ] || finish 1
finish 0
