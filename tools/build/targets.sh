#!/bin/sh
# Runs the tests of the crate for another processor, under QEMU: targets.sh aarch64|s390x..
# s390x has the greatest byte first, and no vectors of its own in the crate: it takes the portable form. CARGO and RUSTC name other tools
# than those in PATH. The target's standard library is needed: `rustup target add aarch64-unknown-linux-gnu`, or Debian's
# libstd-rust-web-dev:arm64, for the rustc of rustc-web. The tests are linked with the static C library: for AArch64 they never end otherwise
# under QEMU 7.2, whatever a test does.
set -eu
top=$(cd "$(dirname "$0")/../.." && pwd)
build=${BUILD:-$top-build}
fail() {
    echo "targets.sh: $*" >&2
    exit 1
}
[ $# -gt 0 ] || { sed -n '2,6s/^# //p' "$0" >&2; exit 2; }
for processor in "$@"; do
    case $processor in
    aarch64) debian=arm64 ;;
    s390x) debian=s390x ;;
    *) fail "there is no test for $processor, but for aarch64 and s390x" ;;
    esac
    target=$processor-unknown-linux-gnu
    for tool in "$processor-linux-gnu-gcc:gcc-$processor-linux-gnu" "qemu-$processor:qemu-user"; do
        command -v "${tool%%:*}" > /dev/null || fail "${tool%%:*} is not there: install ${tool#*:}"
    done
    [ -e "/usr/$processor-linux-gnu/lib/libc.a" ] || fail "there is no C library for $processor: install libc6-dev-$debian-cross"
    std=$(find "$("${RUSTC:-rustc}" --print target-libdir --target "$target")" -name 'libstd-*' 2> /dev/null || true)
    [ -n "$std" ] || fail "${RUSTC:-rustc} has no library for $target: let rustup add it (rustup target add $target), or install Debian's" \
        "cargo-web and libstd-rust-web-dev:$debian, after dpkg --add-architecture $debian, and set RUSTC=/usr/bin/rustc"
    name=CARGO_TARGET_$(echo "$target" | tr a-z- A-Z_)
    cd "$top/packages/rust"
    env "${name}_LINKER=$processor-linux-gnu-gcc" "${name}_RUNNER=qemu-$processor" "${name}_RUSTFLAGS=-C target-feature=+crt-static" \
        CARGO_TARGET_DIR="$build/cargo/targets" "${CARGO:-cargo}" test --quiet --offline --release --target "$target" --tests --lib
    echo "ok: the tests of the crate for $processor"
done
