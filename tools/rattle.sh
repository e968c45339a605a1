# Functions for the scripts that call the compiler without `rt`: to build for another processor, or
# to keep all that the prover says. To be sourced in the repository's root.

# The kit is in RATTLE_HOME, or else where rt is.
rt=$(readlink -f "$(command -v rt)") || { echo "tools/rattle.sh: no rt on the path" >&2; exit 2; }
kit=${RATTLE_HOME:-$(dirname "$(dirname "$rt")")}

# The crates and the libraries of the kit that a line of crates.txt lists.
deps_of() { # NAME
    sed -nE "s/#.*//; s/^$1( staticlib)?: *//p" crates.txt
}

# The crates below, each once.
below() { # NAME
    local d
    for d in $(deps_of "$1"); do
        [ ! -d "crates/$d" ] || { below "$d" && echo "$d"; }
    done | awk '!seen[$0]++'
}

# Sees that the libraries below stand proved in crates/*/out/rlib. In the gate, in a checkout that
# had none, those are there that `rt ci` has just proved (PROVED_BY_CI); else rt proves what has
# changed. It ends with a status other than 0 where one is not proved.
libraries() { # NAME
    local d
    if [ -z "${PROVED_BY_CI:-}" ]; then
        (cd "crates/$1" && rt check --only "") </dev/null
    fi
    for d in $(below "$1"); do
        [ -f "crates/$d/out/rlib/$d.rlib/format" ] || { echo "the library $d is not proved"; return 1; }
    done
}

# The words that `rattle check` and `rattle build` take for a crate, one a line, as rt gives them.
# They are for its folder.
words_of() { # NAME
    local d root=src/lib.rt
    [ ! -f "crates/$1/src/main.rt" ] || root=src/main.rt
    printf '%s\n' --crate-name "$1" "$root" --extern "std=$kit/rlibs/std.rlib" -L "dependency=$kit/rlibs"
    for d in $(deps_of "$1"); do
        if [ -d "crates/$d" ]; then
            printf '%s\n' --extern "$d=$PWD/crates/$d/out/rlib/$d.rlib"
        else
            printf '%s\n' --extern "$d=$kit/rlibs/$d.rlib"
        fi
    done
    for d in $(below "$1"); do printf '%s\n' -L "dependency=$PWD/crates/$d/out/rlib"; done
    printf '%s\n' --antt-project "$kit/rattle/logic/antt-project.json" --logic-built "$kit/logic_built"
    # No crate declares functions of C.
    printf '%s\n' --links "$1="
    ! grep -q "^$1 staticlib:" crates.txt || printf '%s\n' --crate-type staticlib
}

# Proves a program or a static library over the libraries below it, and compiles it for a processor:
# a program to an object file, a static library to its archive. Where it is not proved, nothing is
# built.
build() { # NAME TARGET FILE
    local file said words
    file=$(realpath -m "$3")
    mapfile -t words < <(words_of "$1")
    rm -f "$file"
    said=$(cd "crates/$1" && "$kit/bin/rattle" build "${words[@]}" --target "$2" \
        --toolchain "$kit/toolchain" --backend llvm --jobs 2 -o "$file" 2>&1 </dev/null) || { echo "$said"; return 1; }
    echo "$said"
    # As in rt: a crate that declares C functions of its own rests on contracts that nothing proves.
    if ! grep -q '^logic=proved' <<<"$said" || grep -q '^logic=proved .*foreign=' <<<"$said"; then
        rm -f "$file"
        return 1
    fi
}

# A file is missing, or crates.txt or a source of a crate is newer.
stale() { # FILE
    [ ! -f "$1" ] || [ -n "$(find crates.txt crates/*/{src,specs,proofs} -type f -newer "$1" -print -quit 2>/dev/null)" ]
}
