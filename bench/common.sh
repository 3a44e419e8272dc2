# shellcheck shell=sh
# What the commands of this folder share; they read it with `.`. It finds the archive and builds programs under target/bench.

root=$(cd "$(dirname "$0")/.." && pwd) || exit 1
src=$root/bench/src
out=$root/target/bench
# shellcheck source=../x86_64.sh
. "$root/x86_64.sh"
if [ -n "$x86_runner" ]; then
    cc=${CC:-$x86_cc}
    cxx=${CXX:-${x86_cc%gcc}g++}
else
    cc=${CC:-gcc}
    cxx=${CXX:-g++}
fi
mkdir -p "$out" || exit 1
# Nothing is written beside the sources.
export PYTHONDONTWRITEBYTECODE=1

stop() {
    printf 'bench: %s\n' "$1" >&2
    exit 1
}

# Stops on another processor: an emulator's times, and valgrind's counts there, say nothing.
needs_x86() {
    [ -z "$x86_runner" ] || stop 'this measures on x86-64 alone'
}

# The archive: NEARBY_ARCHIVE names it or its folder; otherwise it is proved and made.
find_archive() {
    archive=${NEARBY_ARCHIVE:-}
    if [ -z "$archive" ]; then
        printf 'bench: making the archive (this proves what is below it, once)\n' >&2
        "$root/build" archive >"$out/archive.log" 2>&1 || stop "the archive could not be made: see $out/archive.log"
        archive=$root/target/staticlib
    fi
    use_archive "$archive"
}

# The archive that is linked from now on.
use_archive() { # its name or its folder's
    archive=$1
    [ -d "$archive" ] && archive=$archive/libnearby_c.a
    [ -f "$archive" ] || stop "there is no archive $archive"
}

# Compiles src/NAME.c or src/NAME.cpp to target/bench/NAME.o.
compile() { # file, flags
    file=$1
    shift
    set -- "$@" -Wall -Wextra -Werror -I"$root/bindings/c" -c "$src/$file" -o "$out/${file%.*}.o"
    if [ "${file##*.}" = cpp ]; then
        "$cxx" -std=c++17 "$@"
    else
        "$cc" -std=gnu11 "$@"
    fi || stop "$file could not be compiled"
}

# Links target/bench/PROGRAM from objects and the archive.
link() { # program, object names
    program=$1
    shift
    for name; do
        shift
        set -- "$@" "$out/$name.o"
    done
    "$cxx" "$@" "$archive" -lm -o "$out/$program" || stop "$program could not be linked"
}

# Puts what stands in a file between the two marks of a section of docs/PERFORMANCE.md.
document() { # section, file
    python3 "$root/bench/report/document.py" "$root/docs/PERFORMANCE.md" "$1" "$2" || exit 1
}
