#!/bin/sh
# Compares the names of the library in PREFIX with exports.map and the header: names.sh PREFIX OUT
# CC is a compiler for the library's processor. readelf reads the files of any.
set -eu
prefix=$1
out=$2
map=$(dirname "$0")/../exports.map
fail() {
    echo "names.sh: $*" >&2
    exit 1
}
# Compares two files of names: same WANTED FOUND WHAT
same() {
    diff "$1" "$2" >&2 || fail "$3 has other names (>) than exports.map (<)"
}
node=$(grep -o '^AEADKIT_[0-9]*' "$map")
grep -oE 'aeadkit_[a-z_]+' "$map" | sort > "$out/exports"
sed -nE 's/^[A-Za-z].*[ *](aeadkit_[a-z_]+)\(.*/\1/p' "$prefix/include/aeadkit.h" | grep -v aeadkit_status_string | sort > "$out/declared"
same "$out/exports" "$out/declared" aeadkit.h

# Each name is that of this major version. No function is called but four of the C library.
# Prints the names that a library exports, or that it takes from others: symbols LIBRARY ==|!= of UND
symbols() {
    readelf --dyn-syms -W "$1" | awk "\$5 == \"GLOBAL\" && \$7 $2 \"UND\" { print \$8 }" | sort
}
sed "s/\$/@@$node/" "$out/exports" > "$out/versioned"
for library in "$prefix/lib/libaeadkit.so" "$prefix"/lib/glibc-hwcaps/*/libaeadkit.so; do
    [ -e "$library" ] || continue
    symbols "$library" != | grep -v "^$node" > "$out/names"
    same "$out/versioned" "$out/names" "$library"
    called=$(symbols "$library" == | grep -vE '^(mem(cpy|move|set|cmp)|bcmp)(@|$)' || true)
    [ -z "$called" ] || fail "$library calls $called"
    readelf -d "$library" | grep -q "SONAME.*\[libaeadkit.so.${node#*_}\]\$" || fail "$library has another SONAME"
done

# The archive has these names and that of the version, and hides them from whoever does not link it.
{ cat "$out/exports"; echo "$node"; } | sort | sed 's/$/ HIDDEN/' > "$out/hidden"
for archive in "$prefix/lib/libaeadkit.a" "$prefix"/lib/x86-64-*/libaeadkit.a; do
    [ -e "$archive" ] || continue
    readelf -sW "$archive" | awk '($5 == "GLOBAL" || $5 == "WEAK") && $7 != "UND" { print $8, $6 }' | sort > "$out/names"
    same "$out/hidden" "$out/names" "$archive"
done
echo '#include <aeadkit.h>
uint32_t plugin(void);
uint32_t plugin(void) { return aeadkit_version(); }' > "$out/plugin.c"
${CC:-cc} -shared -fPIC -I"$prefix/include" "$out/plugin.c" "$prefix/lib/libaeadkit.a" -o "$out/plugin.so"
[ "$(symbols "$out/plugin.so" !=)" = plugin ] || fail "a plug-in that links the archive exports its names"
echo "ok: the names of the library"
