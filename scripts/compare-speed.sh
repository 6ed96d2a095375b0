#!/usr/bin/env bash
# Measures how fast the C libraries of crates/jinthoral and crates/one_block are beside OpenSSL, Crypto++ and Botan
# (foreign/speed.cpp), and prints a report in Markdown.
#
#     scripts/compare-speed.sh [--write]
#
# It proves and builds both libraries, and compiles the benchmark into target/foreign/. With --write the report also takes the
# place of the one in docs/SPEED.md. Where LIBRARY is set, the library that it names is measured in place of jinthoral's, and
# where KEYS_LIBRARY is, in place of one_block's; what is named is not built:
#
#     LIBRARY=some/libjinthoral.a KEYS_LIBRARY=some/libone_block.a scripts/compare-speed.sh
#
# It wants the Debian packages that scripts/peers.sh names, and installs nothing.
set -euo pipefail
# These paths are those of the directory which the script was called from.
library=${LIBRARY:+$(realpath -- "$LIBRARY")}
keys_library=${KEYS_LIBRARY:+$(realpath -- "$KEYS_LIBRARY")}
cd "$(dirname "$0")/.."
script=compare-speed
headers="openssl/des.h cryptopp/cryptlib.h botan/block_cipher.h"
sources="speed contest speed_report speed_library speed_openssl speed_cryptopp speed_botan"
# These tell the versions of the packages.
sources+=" ciphers openssl cryptopp botan second_reading"
libraries="-lcrypto -lcryptopp -lbotan-2"
built=target/foreign
document=docs/SPEED.md
flags="-std=c++17 -Wall -Wextra -O2 -I/usr/include/botan-2 -Icrates/jinthoral/include -Icrates/one_block/include"
log=$(mktemp)
report=$(mktemp)
trap 'rm -f "$log" "$report"' EXIT
. scripts/peers.sh

# take LIBRARY CALL: makes an object of the library with the call. Where the linker puts the library's code, counted modulo 64,
# changes how fast it is. So it always begins at a multiple of 64.
take() {
    local object=$built/speed.o/$2.o
    ld -r -u "$2" "$1" -o "$object"
    objcopy --set-section-alignment .text=64 "$object"
}

compile() {
    rm -rf "$built/speed.o"
    mkdir -p "$built/speed.o"
    printf '%s\n' $sources | xargs -P "$(nproc)" -I{} g++ $flags -c foreign/{}.cpp -o "$built/speed.o/{}.o"
    take "$library" jinthoral_pass
    take "$keys_library" one_block_des
    g++ "$built/speed.o"/*.o $libraries -o "$built/speed"
}

# The report in the document is what stands between its two marks.
write_report() {
    grep -qx '<!-- measured -->' "$document" && grep -qx '<!-- end -->' "$document" || stop "$document has lost its marks"
    sed -i -e "/^<!-- measured -->\$/r $report" -e '/^<!-- measured -->$/,/^<!-- end -->$/{/^<!--/!d}' "$document"
}

case "$*" in
'' | --write) ;;
*) stop "usage: scripts/compare-speed.sh [--write]" ;;
esac
demand_packages
[ -n "$library" ] || { build jinthoral; library=crates/jinthoral/out/libjinthoral.a; }
[ -n "$keys_library" ] || { build one_block; keys_library=crates/one_block/out/libone_block.a; }
echo "compiling the benchmark .." >&2
compile
echo "measuring .." >&2
"$built/speed" > "$report"
cat "$report"
[ "${1-}" != --write ] || write_report
