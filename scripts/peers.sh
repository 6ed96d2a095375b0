# Sourced by the scripts that hold the C libraries against other implementations. They set `script` to what they are called,
# `headers` to the peers' headers, `flags` to those of the compiler and `log` to a file.
packages="g++ libssl-dev libcrypto++-dev libbotan-2-dev"

stop() {
    echo "$script: $1" >&2
    exit 2
}

demand_packages() {
    local header
    for header in $headers; do
        echo "#include <$header>" | g++ $flags -fsyntax-only -x c++ - 2> "$log" ||
            stop "$header is wanting. Install Debian's packages: apt-get install $packages"
    done
}

# build CRATE: proves and builds its static library.
build() {
    local made=crates/$1/out/lib$1.a
    echo "proving and building $1 .." >&2
    rm -f "$made"
    (cd "crates/$1" && rt lib) > "$log" 2>&1 < /dev/null || true
    [ -f "$made" ] || { cat "$log" >&2; stop "$1 was not proved and built"; }
}
