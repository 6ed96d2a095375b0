#!/usr/bin/env bash
# Shows that a cipher which a bench holds cannot be called on, nor a bench that was taken apart; and that a key, once it
# holds its bytes, can be handed over once, cannot be let go, and is not looked at. The compiler refuses such code before
# the prover sees it, so no must-fail edit can show it. Each case adds one function to a copy of the repository and compiles
# its crate (`rt check --only ""` proves nothing of it). A refused case must fail with the one error that is named, in the
# file that was changed, and with no other; the accepted ones beside it are the same calls while nothing forbids them.
set -euo pipefail
cd "$(dirname "$0")/.."

copy=$(mktemp -d)
trap 'rm -rf "$copy"' EXIT
tar -c --exclude=out crates | tar -x -C "$copy"
cp crates.txt "$copy/crates.txt"

# Whether the log has exactly one error, the one that is wanted in the file.
only_error() {
    [ "$(grep -c 'error' "$1")" = 1 ] && grep -q "$2:[0-9:]* error\[$3" "$1"
}

# try LABEL WANTED CRATE FILE FUNCTION: compiles CRATE with FUNCTION added to its FILE.
# WANTED is `accepted`, or the one error that must come, as `CODE\]: TEXT`.
try() {
    local label=$1 wanted=$2 crate=$3 file=src/$4 log=$copy/$1.log got=accepted
    cp "crates/$crate/$file" "$copy/crates/$crate/$file"
    printf '\n%s\n' "$5" >> "$copy/crates/$crate/$file"
    (cd "$copy/crates/$crate" && rt check --only "") > "$log" 2>&1 || got=refused
    cp "crates/$crate/$file" "$copy/crates/$crate/$file"
    if [ "$wanted" != accepted ] && [ "$got" = refused ] && only_error "$log" "$file" "$wanted"; then
        got=$wanted
    fi
    if [ "$got" != "$wanted" ]; then
        echo "moved values: $label is $got, which it must not be" >&2
        grep error "$log" >&2 || true
        exit 1
    fi
    if [ "$got" = accepted ]; then
        echo "moved values: $label: accepted, as it must be"
    else
        echo "moved values: $label: refused, as it must be (${got%%\\*})"
    fi
}

# The error of a moved value, which is called on or handed over again.
moved() { printf 'borrow-e0382\\]: [a-z]* of moved value: `%s`' "$1"; }

# Any cipher.
any() { try "$1" "$2" chaining sessions.rt "pub fn tried<C: Cipher + Drop>(cipher: C, block: u64) -> u64 { $3 }"; }
any seal-before accepted 'let sealed = cipher.seal(block); let _bench = Bench::new(cipher); sealed'
any seal-held "$(moved cipher)" 'let _bench = Bench::new(cipher); cipher.seal(block)'
any seal-taken-apart accepted 'let bench = Bench::new(cipher); let cipher = bench.into_cipher(); cipher.seal(block)'

# XTEA.
xtea() { try "$1" "$2" transcripts return_trip.rt "pub fn tried(key: &[u8; 16], block: u64) -> u64 { let mut cipher = full_xtea(key); $3 }"; }
xtea turn-before accepted 'cipher.turn(); let bench = Bench::new(cipher); bench.into_cipher().seal(block)'
xtea turn-held "$(moved cipher)" 'let bench = Bench::new(cipher); cipher.turn(); bench.into_cipher().seal(block)'
xtea bench-before accepted 'cipher.turn(); let mut bench = Bench::new(cipher); bench.turn(); bench.into_cipher().seal(block)'
xtea bench-taken-apart "$(moved bench)" 'cipher.turn(); let mut bench = Bench::new(cipher); let sealed = bench.into_cipher().seal(block); bench.turn(); sealed'

# A key, in a crate that does not see into it.
key() { try "$1" "$2" trials examining.rt "pub fn tried(pile: &mut Pile, bytes: &mut [u8]) -> bool { $3 }"; }
key key-once accepted 'let key = piles::Key::new(bytes); pile.fit(b"des", key).is_ok()'
key key-twice "$(moved key)" 'let key = piles::Key::new(bytes); let first = pile.fit(b"des", key).is_ok(); let again = pile.fit(b"des", key).is_ok(); first && again'
key key-after-refusal "$(moved key)" 'let key = piles::Key::new(bytes); let first = pile.fit(b"foo", key).is_ok(); let again = pile.fit(b"des", key).is_ok(); first || again'
key key-filled-again accepted 'let key = piles::Key::new(bytes); let first = pile.fit(b"des", key).is_ok(); bytes.fill(1); let key = piles::Key::new(bytes); let again = pile.fit(b"des", key).is_ok(); first && again'
key key-let-go 'linear-value-let-go\]: `_key` is let go' 'let _key = piles::Key::new(bytes); true'
key key-looked-at 'borrow-e0502\]: cannot borrow `.bytes`' 'let key = piles::Key::new(bytes); let first = bytes.len(); let fitted = pile.fit(b"des", key).is_ok(); first > 0 && fitted'
key key-looked-at-before accepted 'let first = bytes.len(); let key = piles::Key::new(bytes); let fitted = pile.fit(b"des", key).is_ok(); first > 0 && fitted'
