# shellcheck shell=sh disable=SC2034
# Sourced by ./test and ./office. The programs and the archive are for x86-64. Where the processor is another one, this finds what builds and
# runs such programs: an emulator, a C compiler, and a Rust compiler that has its library for x86-64.

x86_target=x86_64-unknown-linux-gnu
x86_runner=
x86_cc=cc
x86_rustc=${RUSTC:-rustc}
x86_rustdoc=${RUSTDOC:-rustdoc}

# Whether a Rust compiler has its library for x86-64.
builds_for_x86() { # compiler
    [ -d "$("$1" --print target-libdir --target "$x86_target" 2>/dev/null)" ]
}

if [ "$(uname -m)" != x86_64 ]; then
    x86_runner=qemu-x86_64
    x86_cc=x86_64-linux-gnu-gcc
    # Debian's compiler takes the libraries of other processors from packages; others may not have them.
    if ! builds_for_x86 "$x86_rustc"; then
        x86_rustc=/usr/bin/rustc
        x86_rustdoc=/usr/bin/rustdoc
    fi
    # Where the machine has no C library for x86-64, the one that the compiler links with.
    if [ ! -e /lib64/ld-linux-x86-64.so.2 ] && [ -d /usr/x86_64-linux-gnu ]; then
        export QEMU_LD_PREFIX=/usr/x86_64-linux-gnu
    fi
fi

# Whether x86-64 programs run here.
runs_x86() {
    [ -z "$x86_runner" ] || command -v "$x86_runner" >/dev/null
}
