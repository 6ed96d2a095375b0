#!/usr/bin/env bash
# Proves and builds the workbench (some minutes the first time), and runs it on its sample: a motor's trace is closed into
# trace.bin, and that is opened again into opened.bin.
#
#     scripts/sample.sh [FOLDER]
#
# The sample is copied to FOLDER, over files of the same names, or to a new folder among the temporary ones.
set -euo pipefail
crate=$(cd "$(dirname "$0")/../crates/workbench" && pwd)
program=$crate/out/workbench
log=$(mktemp)
trap 'rm -f "$log"' EXIT

# What `rt run` ends with says nothing here: it also runs the program, where no sample lies. With none of before, a program
# that is there afterwards was proved and built.
rm -f "$program"
echo "proving and building the workbench .."
(cd "$crate" && rt run) > "$log" 2>&1 < /dev/null || true
if [ ! -x "$program" ]; then
    cat "$log" >&2
    echo "sample: the workbench was not proved and built" >&2
    exit 1
fi

folder=${1:-$(mktemp -d)}
mkdir -p "$folder"
cp "$crate"/data/* "$folder"
cd "$folder"
"$program" 1 5 9
echo "sample: trace.bin and opened.bin lie in $PWD"
