# Where the kit's tools are, for the scripts that read this in: its clang and linker, its C library, and
# what runs a program. Programs are for x86-64; here each is run by the kit's own loader and C library,
# so that what it says and costs does not hang on those of this machine.
kit=$(dirname "$(rt doc)")
tools=$kit/toolchain
lib=$tools/lib
launch() { "$lib/ld-linux-x86-64.so.2" --library-path "$lib" "$@"; }

# What rt makes of a crate, in its folder: of a program, and of a static library.
program_of() { printf 'crates/%s/out/%s' "$1" "$1"; }
archive_of() { printf 'crates/%s/out/lib%s.a' "$1" "$1"; }

# Proves and builds a program. `rt run` runs it too, here on an empty script, of which each of ours says
# nothing. What rt has to say comes on standard error.
build_program() { (cd "crates/$1" && rt run </dev/null >/dev/null); }
# Proves and builds a static library.
build_archive() { (cd "crates/$1" && rt lib); }
