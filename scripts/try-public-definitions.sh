#!/usr/bin/env bash
# Shows that public-definitions.py refuses what it is there for. In a copy of the repository a definition is planted in
# specs/internal/ of networks, which alone must be accepted. Then each case changes one place of the copy, and the script
# must name the planted definition, or accept the change where the place is not public; the change is undone after it.
set -euo pipefail
cd "$(dirname "$0")/.."

copy=$(mktemp -d)
trap 'rm -rf "$copy"' EXIT
tar -c --exclude=out --exclude=target crates | tar -x -C "$copy"
cp crates.txt "$copy/crates.txt"

fail() {
    echo "public definitions: $1" >&2
    [ ! -s "$copy/log" ] || head -5 "$copy/log" >&2
    exit 1
}

judged() {
    if scripts/public-definitions.py --root "$copy" > "$copy/log" 2>&1; then echo accepted; else echo refused; fi
}

[ "$(judged)" = accepted ] || fail "the unchanged copy is refused, which it must not be"

# The definition. The folder is made where the crate has none.
specs=$copy/crates/networks/specs
mkdir -p "$specs/internal"
grep -qx 'pub mod internal' "$specs/Lib.antt" || echo 'pub mod internal' >> "$specs/Lib.antt"
echo 'pub mod Planted' >> "$specs/internal.antt"
cat > "$specs/internal/Planted.antt" <<'PLANTED'
-- What no public contract may reach. Assumes nothing.

-- the same value
abbrev pub planted : {X : Type 0} → X → X
planted x = x
PLANTED
[ "$(judged)" = accepted ] || fail "the planted definition alone is refused, which it must not be"

use='use Rattle.networks.specs.internal.Planted.{planted}'
cases=0

# try LABEL WANTED FILE OLD NEW: writes NEW for OLD in FILE, where it must stand once, with a use of the planted definition.
# WANTED is `accepted`, or a text that the refusal must have.
try() {
    local label=$1 wanted=$2 file=$copy/crates/$3 got use=$use
    case $3 in *.rt) use="ghost $use;" ;; esac
    cp "$file" "$copy/kept"
    USE=$use OLD=$4 NEW=$5 python3 - "$file" <<'CHANGE' || fail "$label cannot be tried, since $3 has not once: $4"
import os, pathlib, sys
path, old = pathlib.Path(sys.argv[1]), os.environ["OLD"]
text = path.read_text(encoding="utf-8")
if text.count(old) != 1:
    sys.exit(1)
path.write_text(os.environ["USE"] + "\n" + text.replace(old, os.environ["NEW"]), encoding="utf-8")
CHANGE
    got=$(judged)
    cp "$copy/kept" "$file"
    if [ "$wanted" = accepted ]; then
        [ "$got" = accepted ] || fail "$label is refused, which it must not be"
    else
        [ "$got" = refused ] || fail "$label is accepted, which it must not be"
        grep -qF "$wanted" "$copy/log" || fail "$label is refused for another reason"
    fi
    cases=$((cases + 1))
}

planted='planted (crates/networks/specs/internal/Planted.antt), which is internal'

# What is public.
try "a public function's clause" "fn swap, ensures: reaches $planted" networks/src/pairs.rt \
    'result ≡ swapped self' 'result ≡ planted (swapped self)'
try "a definition of specs/" "swapped (crates/networks/specs/Halves.antt) -> $planted" networks/specs/Halves.antt \
    'swapped h = record { left = h.right; right = h.left }' \
    'swapped h = planted (record { left = h.right; right = h.left })'
try "a definition's type" "$planted" networks/specs/Halves.antt \
    'Words : {W : Type 0} → (W → Type 0)' 'Words : {W : Type 0} → (W → planted (Type 0))'
try "the view of a public type" "ghost view: reaches $planted" networks/src/schedules.rt \
    'ghost view = { λ s. map F.word_of s.kept.items }' 'ghost view = { λ s. planted (map F.word_of s.kept.items) }'
try "a member of a public trait's implementation" "ghost word_of: reaches $planted" networks/src/half_words.rt \
    'ghost word_of = { λ number. number }' 'ghost word_of = { planted }'
try "a public trait's member" "ghost number_of: reaches $planted" networks/src/half_words.rt \
    'ghost number_of: { Self → ℕ }' 'ghost number_of: { planted (Self → ℕ) }'
try "a clause of a public trait" "fn from_number, ensures: reaches $planted" networks/src/half_words.rt \
    'result ≡ word_of number' 'result ≡
        word_of (planted number)'
inner='struct Inner;

impl Model for Inner {
    ghost Value = { ℕ };

    ghost view = { planted };
}
'
try "a type that a public function answers" "fn inner, types: reaches Inner (a type of networks) -> $planted" networks/src/pairs.rt \
    'impl<W> Halves<W> {' "$inner
pub fn inner() -> Inner {
    Inner
}

impl<W> Halves<W> {"
try "a type that a public name stands for" "ghost view: reaches $planted" networks/src/pairs.rt \
    'impl<W> Halves<W> {' "$inner
pub type Named = Halves<Inner>;

impl<W> Halves<W> {"
try "a member of a private trait" "ghost twisted: reaches $planted" networks/src/pairs.rt \
    'impl<W> Halves<W> {' 'trait Twisted {
    ghost twisted: { Self → Self };
}

impl Twisted for Halves<u32> {
    ghost twisted = { planted };
}

impl<W> Halves<W> {'
try "a member below a trait's functions that a clause names" "ghost lower: reaches $planted" networks/src/half_words.rt \
    'ensures { result ≡ number_of self };

    // what each implementation shows
    ghost faithful: { Faithful Self.Word.fits word_of number_of };
}

impl HalfWord for u32 {' 'ensures { result ≡ lower self };

    ghost lower: { Self → ℕ };

    ghost faithful: { Faithful Self.Word.fits word_of number_of };
}

impl HalfWord for u32 {
    ghost lower = { planted };
'
try "a definition that nothing reaches" "lonely is reached by no public contract" networks/specs/Halves.antt \
    '-- both halves are words' 'abbrev pub lonely : ℕ → ℕ
lonely n = n

-- both halves are words'
try "a use of what is not there" "there is no missing in" networks/src/half_words.rt \
    'networks.specs.HalfWords.{Faithful}' 'networks.specs.HalfWords.{Faithful, missing}'

# What is not.
try "a private function's clause" accepted networks/src/schedules.rt \
    'result.items ≡ take (min count N) words.entry' 'result.items ≡ planted (take (min count N) words.entry)'
try "a law" accepted networks/src/half_words.rt \
    'ghost faithful = { record {' 'ghost faithful = { planted record {'
try "a cipher's map" accepted ciphers/src/swap.rt \
    'ghost map = { λ _. halves_swapped }' 'ghost map = { λ _. planted halves_swapped }'

echo "public definitions: $cases planted changes are refused or accepted, as each must be"
