# To be sourced by scripts in bash: how programs for x86-64 are compiled and run here. Rattle runs on x86-64, and compiles for it alone; what it has made
# can be linked and run on another machine too, for which Debian has a compiler and an emulator, which tools/prepare installs.
#
#   x86_64_tool       what stands before the name of a tool for x86-64, as in ${x86_64_tool}gcc
#   x86_64_run WORD.. runs a program for x86-64
#   x86_64_missing    prints what is missing to compile for x86-64, a line each
#
# Cargo takes what it needs from the environment, and puts what it makes into target/cargo/x86_64-unknown-linux-gnu.
# shellcheck shell=bash

x86_64_tool=''
export CARGO_BUILD_TARGET=x86_64-unknown-linux-gnu

x86_64_run() {
    "$@"
}

# A compiler of Rust that has the standard library for x86-64: the first on the PATH, or Debian's.
x86_64_rustc() {
    local rustc
    for rustc in "$(command -v rustc)" /usr/bin/rustc; do
        if [ -x "$rustc" ] && [ -d "$("$rustc" --print target-libdir --target "$CARGO_BUILD_TARGET" 2>/dev/null)" ]; then
            echo "$rustc"
            return
        fi
    done
}

if [ "$(uname -m)" != x86_64 ]; then
    x86_64_tool=x86_64-linux-gnu-
    export CARGO_TARGET_X86_64_UNKNOWN_LINUX_GNU_LINKER=${x86_64_tool}gcc CARGO_TARGET_X86_64_UNKNOWN_LINUX_GNU_RUNNER=qemu-x86_64
    RUSTC=$(x86_64_rustc)
    if [ -n "$RUSTC" ]; then export RUSTC RUSTDOC=${RUSTC%c}doc; else unset RUSTC; fi

    # By Debian's emulator.
    x86_64_run() {
        qemu-x86_64 "$@"
    }
fi

x86_64_missing() {
    local command
    for command in cargo rustc "${x86_64_tool}gcc" "${x86_64_tool}ar" "${x86_64_tool}nm" "${x86_64_tool}readelf"; do
        command -v "$command" >/dev/null || echo "$command"
    done
    [ "$(uname -m)" = x86_64 ] && return
    command -v qemu-x86_64 >/dev/null || echo "qemu-x86_64"
    [ -n "${RUSTC-}" ] || echo "the Rust standard library for $CARGO_BUILD_TARGET"
}
