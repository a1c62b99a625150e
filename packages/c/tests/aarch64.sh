#!/bin/sh
# Tests the library for AArch64 in PREFIX on a machine of another processor, under QEMU: aarch64.sh PREFIX OUT
# It runs what the Makefile runs there, but for the sanitizers, C++ and the examples on damaged bytes.
set -eu
prefix=$1 out=$2
here=$(cd "$(dirname "$0")" && pwd)
fail() {
    echo "aarch64.sh: $*" >&2
    exit 1
}
for tool in aarch64-linux-gnu-gcc:gcc-aarch64-linux-gnu qemu-aarch64:qemu-user readelf:binutils pkg-config:pkg-config; do
    command -v "${tool%:*}" > /dev/null || fail "${tool%:*} is not there: install ${tool#*:}"
done
[ -e /usr/aarch64-linux-gnu/include/stdio.h ] || fail "there is no C library for AArch64: install libc6-dev-arm64-cross"
readelf -h "$prefix/lib/libaeadkit.so" | grep -q 'Machine: *AArch64' || fail "$prefix has no library for AArch64: build it with BUILDS=aarch64"
mkdir -p "$out"
out=$(cd "$out" && pwd)
qemu="qemu-aarch64 -L /usr/aarch64-linux-gnu"
cc="aarch64-linux-gnu-gcc -std=c11 -O2 -Wall -Wextra -Werror -pedantic -pthread -I$prefix/include"

# Refused targets: the header says what they lack.
for target in __ILP32__ __APPLE__ __ANDROID__ __AARCH64EB__; do
    ! echo '#include <aeadkit.h>' | $cc -D$target=1 -x c -fsyntax-only - 2> "$out/refused" || fail "the header takes $target"
    grep -q 'libaeadkit is for little-endian AArch64 Linux' "$out/refused" || fail "the header refuses $target for another reason"
done
CC=aarch64-linux-gnu-gcc "$here/names.sh" "$prefix" "$out"

# Each test over the archive, and those that look at calls and stack over the shared library too.
run() {
    $qemu -E LD_LIBRARY_PATH="$prefix/lib" "$out/$1" $2 || fail "$1 $2 fails"
}
for test in calls "pieces 1000" overlap stack "vectors $here/../../../docs/published.vectors" "vectors $here/../../../docs/edges.vectors"; do
    name=${test%% *}
    $cc "$here/$name.c" "$prefix/lib/libaeadkit.a" -Wl,-z,now -o "$out/$name"
    run "$name" "${test#"$name"}"
done
for name in calls overlap stack; do
    # shellcheck disable=SC2046
    $cc "$here/$name.c" $(PKG_CONFIG_PATH=$prefix/lib/pkgconfig pkg-config --libs aeadkit) -Wl,-z,now -o "$out/$name.shared"
    run "$name.shared" ""
done

# What another processor sealed opens, and what is sealed here opens again.
$cc "$here/../examples/backup.c" "$prefix/lib/libaeadkit.a" -o "$out/backup"
printf 'a key of 32 bytes for the sample' > "$out/key"
[ "$(run backup "open $out/key sample" < "$here/../examples/sample.segments")" = "The parcel leaves at nine, and the letter at ten." ] ||
    fail "the sample opens to another text"
head -c 1100000 /dev/urandom > "$out/text"
run backup "seal $out/key sample" < "$out/text" > "$out/sealed"
run backup "open $out/key sample" < "$out/sealed" | cmp - "$out/text"
echo "ok: the library for AArch64"
