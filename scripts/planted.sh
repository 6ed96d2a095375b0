#!/usr/bin/env bash
# Tries the bugs of planted/ on a copy of the repository: the check must refuse each. With names of crates, of these alone. It
# prints for each crate how many were tried, how many were refused, and of how many the first fault was found in the code that
# is wrong; and fails where a bug passes or cannot be tried. (Those of must-fail/ are tried by the gate.)
set -euo pipefail
cd "$(dirname "$0")/.."

copy=$(mktemp -d)
trap 'rm -rf "$copy"' EXIT
git ls-files -z crates crates.txt planted | xargs -0 cp --parents -t "$copy"
cd "$copy"

# try CRATE: its line of the table, and the bugs that were not refused.
try() {
    local tried refused in_code
    rm -rf "crates/$1/must-fail"
    cp -r "planted/$1" "crates/$1/must-fail"
    rt must-fail "$1" >told 2>&1 || true
    tried=$(find "planted/$1" -name '*.edit' | wc -l)
    refused=$(grep -c 'refused, as it must be' told || true)
    in_code=$(grep -cE 'refused, as it must be: (note: )?(\./)?src/' told || true)
    printf '%-14s %6d %8d %8d\n' "$1" "$tried" "$refused" "$in_code"
    grep -F "must-fail $1/" told | grep -vE 'refused, as it must be: (note: )?(\./)?src/' | cut -c1-200 || true
    [ "$refused" = "$tried" ] || failed=1
}

failed=0
printf '%-14s %6s %8s %8s\n' crate tried refused 'in code'
for crate in ${*:-$(ls planted)}; do
    try "$crate"
done
exit $failed
