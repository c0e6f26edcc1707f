# How our programs are proved, built, compiled and linked with the kit. Sourced, at the repository's root.

# The kit stands where rt does.
kit=$(dirname "$(dirname "$(readlink -f "$(command -v rt)")")")
if [ ! -x "$kit/toolchain/bin/clang" ]; then
    echo "there is no kit: put rt on the PATH" >&2
    exit 2
fi

# Was the file made after the last change of a crate?
is_fresh() { # FILE
    [ -f "$1" ] && [ -z "$(find crates.txt crates -name out -prune -o -type f -newer "$1" -print)" ]
}

# Proves and builds the program crates/NAME/out/NAME, unless it is fresh. rt then runs it, here on no input.
make_program() { # NAME
    if ! is_fresh "crates/$1/out/$1"; then
        (cd "crates/$1" && rt run </dev/null >/dev/null) && touch "crates/$1/out/$1"
    fi
}

# Proves the reader and writes its archive, unless it is fresh.
archive=target/staticlib/libmanifest.a
make_archive() {
    if ! is_fresh "$archive"; then
        (cd crates/manifest_c && rt lib) && mkdir -p target/staticlib && cp crates/manifest_c/out/libmanifest_c.a "$archive"
    fi
}

# Compiles as the kit compiles its own archives. The kit has the C library and not its headers, and the machine may have
# none: tools/include declares what our programs use.
compile() { # OBJECT SOURCE
    "$kit/toolchain/bin/clang" --target=x86_64-unknown-linux-gnu -march=x86-64-v2 -O2 -fPIC -std=c11 -Wall -Wextra \
        -Werror -nostdinc -isystem tools/include -c "$2" -o "$1"
}

link_program() { # PROGRAM OBJECT..
    program=$1
    shift
    set -- --target x86_64-unknown-linux-gnu --toolchain "$kit/toolchain" -o "$program" "$@"
    if ! said=$("$kit/bin/rattle-link" "$@" 2>&1); then
        echo "$said" >&2
        return 1
    fi
}
