#!/usr/bin/env bash
# Compares the C library of crates/jinthoral with OpenSSL, Crypto++ and Botan, and with a reading of the documents in C++, on
# random cases (foreign/compare.cpp).
#
#     scripts/compare-foreign.sh [COUNT [SEED]] [--case NUMBER] [--spoil]
#
# It proves and builds the library, and compiles the comparison into target/foreign/. First it shows that the comparison finds
# every answer that is spoiled on purpose, and tries some cases under sanitizers; then it compares, with the arguments. Its last
# line is 'N cases, N agree'.
#
# It wants the Debian packages that scripts/peers.sh names, and installs nothing.
set -euo pipefail
cd "$(dirname "$0")/.."
script=compare-foreign
headers="openssl/provider.h cryptopp/cryptlib.h botan/block_cipher.h"
sources="compare tally library cases agreement reference ciphers openssl cryptopp botan second_reading"
libraries="-lcrypto -lcryptopp -lbotan-2"
crate=crates/jinthoral
library=$crate/out/libjinthoral.a
built=target/foreign
log=$(mktemp)
trap 'rm -f "$log"' EXIT
flags="-std=c++17 -Wall -Wextra -I/usr/include/botan-2 -I$crate/include"
. scripts/peers.sh

# compile NAME FLAG..: the comparison as target/foreign/NAME.
compile() {
    local name=$1
    shift
    rm -rf "$built/$name.o"
    mkdir -p "$built/$name.o"
    printf '%s\n' $sources | xargs -P "$(nproc)" -I{} g++ $flags "$@" -c foreign/{}.cpp -o "$built/$name.o/{}.o"
    g++ "$@" "$built/$name.o"/*.o "$library" $libraries -o "$built/$name"
}

# In 16,000 cases one answer of each part is spoiled. The comparison must end with status 1 for these and no others.
demand_spoiled_found() {
    local status=0
    "$built/compare" 16000 --spoil > "$log" || status=$?
    if [ $status != 1 ] || ! grep -qx "16 cases were spoiled" "$log" || ! grep -qx "16000 cases, 15984 agree" "$log"; then
        cat "$log" >&2
        stop "spoiled answers were not found, or others differ"
    fi
    echo "16 spoiled answers among 16000 were found"
}

demand_sanitized() {
    "$built/sanitized" 4000 > "$log" 2>&1 || { cat "$log" >&2; stop "cases differ under sanitizers"; }
    echo "under sanitizers: $(tail -n 1 "$log")"
}

demand_packages
build jinthoral
echo "compiling the comparison .."
compile compare -O2
compile sanitized -O1 -g -fsanitize=address,undefined -fno-sanitize-recover=undefined
demand_spoiled_found
demand_sanitized
"$built/compare" "$@"
