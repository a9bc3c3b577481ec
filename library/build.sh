#!/bin/sh
# Builds the library and its examples: library/build.sh
#
# In library/lib come librvcfi_c.a and librvcfi_run_c.a, of crates/rvcfi_c and rvcfi_run_c, which archive.py proves, and librvcfi_heap.a,
# their memory over malloc (c/heap.c); in library/lib/aarch64 the same for aarch64, where aarch64-linux-gnu-gcc is there; in
# library/out the examples ask, run and loader. CC names another compiler than cc. What is missing is told, and left out.
set -eu
cd "$(dirname "$0")"
cc=${CC:-cc}
flags="-std=c99 -O2 -Wall -Wextra -pedantic -Iinclude"
for command in "$cc" python3; do
    if ! command -v "$command" >/dev/null; then
        echo "not built, since there is no $command: the library for C"
        exit 0
    fi
done

# archives FOLDER COMPILER ARCHIVER WORD ..: the archives, by archive.py with these words
archives() {
    folder=$1 compiler=$2 archiver=$3
    shift 3
    mkdir -p "$folder"
    for crate in rvcfi_c rvcfi_run_c; do
        python3 archive.py "$crate" "$folder/lib$crate.a" "$@"
    done
    $compiler $flags -fPIC -c c/heap.c -o out/heap.o
    rm -f "$folder/librvcfi_heap.a"
    $archiver rc "$folder/librvcfi_heap.a" out/heap.o
}

# example NAME FILE .. -- WORD ..: a program of these files of the folder examples, compiled with these words
example() {
    name=$1 files=
    shift
    while [ "$1" != -- ]; do
        files="$files examples/$1"
        shift
    done
    shift
    $cc $flags $files lib/librvcfi_c.a lib/librvcfi_heap.a "$@" -o "out/$name"
    echo "built library/out/$name"
}

mkdir -p out
if command -v aarch64-linux-gnu-gcc >/dev/null; then
    archives lib/aarch64 aarch64-linux-gnu-gcc aarch64-linux-gnu-ar --target aarch64-unknown-linux-gnu
else
    echo "not built, since there is no aarch64-linux-gnu-gcc: library/lib/aarch64"
fi
archives lib "$cc" ar
example ask ask.c file.c words.c --
example run run.c file.c words.c -- lib/librvcfi_run_c.a lib/librvcfi_heap.a
printf '#include <unicorn/unicorn.h>\nint main(void) { return 0; }\n' >out/unicorn.c
if $cc out/unicorn.c -lunicorn -o out/unicorn 2>/dev/null; then
    example loader loader.c emulator.c file.c words.c -- -DRVCFI_UNICORN -lunicorn
else
    echo "library/out/loader runs nothing, since there is no libunicorn-dev"
    example loader loader.c file.c words.c --
fi
