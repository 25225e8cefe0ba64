# What tests/run, tests/fuzz and tests/corpus share; each reads it in. It goes to the repository's
# folder and builds the model there, as target/model/model.

die() {
    printf '%s: %s\n' "$0" "$*" >&2
    exit 2
}

cd "$(dirname "$0")/.."
command -v rustc >/dev/null || die 'rustc is not on the PATH: the model is written in Rust'
work=$(pwd)/target/model
mkdir -p "$work"
rustc -O --edition 2021 -o "$work/model" tests/model/main.rs

# Proves and builds the programs, and asks the model to compare itself with them: its words
# are those given, and then those that start a program.
compare() {
    command -v rt >/dev/null || die 'rt is not on the PATH'
    . tests/kit.sh
    for program in cardline busline vectors corpus; do
        said=$(build_program "$program" 2>&1) || {
            printf '%s\n' "$said" >&2
            die "$program is not proved"
        }
    done
    "$work/model" "$@" -- "$lib/ld-linux-x86-64.so.2" --library-path "$lib"
}
