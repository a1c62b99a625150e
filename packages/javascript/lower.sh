#!/bin/sh
# Makes a module with 32-bit addresses of one with 64-bit addresses, so that hosts without memory64 run it.
set -eu
if [ $# != 2 ]; then
    echo "usage: lower.sh MODULE64 MODULE32
  Needs wasm-dis and wasm-as of Binaryen, and python3" >&2
    exit 2
fi
room=$(mktemp -d)
trap 'rm -rf "$room"' EXIT
features="--enable-simd --enable-bulk-memory --enable-sign-ext --enable-nontrapping-float-to-int --enable-mutable-globals
    --enable-multivalue"
wasm-dis $features --enable-memory64 "$1" -o "$room/64.wat"
python3 "$(dirname "$0")/lower.py" < "$room/64.wat" > "$room/32.wat"
wasm-as $features "$room/32.wat" -o "$2"
