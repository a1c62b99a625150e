#!/bin/sh
# What the Makefile runs to build and to pack: lib.sh library|program|wasm|ready|native|again|compilers PREFIX, lib.sh dist|missing,
# or lib.sh same FOLDER FOLDER.
# FROM says who compiles the proved source: `kit`, the Rattle kit, which proves it before, or `rust`, which is cargo. BUILD is the folder of
# the work. BUILDS names the builds of the library, and PROGRAM that of the program: `default`, `avx2` and, by cargo alone, `avx512` are for
# x86-64, and may stand in one prefix, and `aarch64` needs a prefix of its own. CARGO and RUSTC name other tools than those in PATH.
set -eu
top=$(cd "$(dirname "$0")/../.." && pwd)
build=${BUILD:-$top-build}
from=${FROM:-kit}
exports=$top/packages/c/exports.map
version=$(sed -n 's/^pub const VERSION: &str = "\(.*\)";$/\1/p' "$top/crates/command/src/version.rt")
major=${version%%.*}

fail() {
    echo "lib.sh: $*" >&2
    exit 1
}

# Fails unless each of these tools is there: needs TOOL:PACKAGE.. of Debian
needs() {
    for tool in "$@"; do
        command -v "${tool%:*}" > /dev/null || fail "${tool%:*} is not there: install ${tool#*:}"
    done
}
needs_rt() {
    command -v "${RT:-rt}" > /dev/null ||
        fail "rt is not there: put the bin folder of the Rattle kit into PATH, or let cargo compile the library, with FROM=rust"
    needs python3:python3
}

# Prints the oldest rustc that takes the sources, and what is wrong with cargo and rustc, if they are not there or older.
oldest() {
    sed -n 's/^rust-version = "\(.*\)"$/\1/p' "$top/packages/rust/Cargo.toml"
}
wrong_rust() {
    for tool in "${CARGO:-cargo}" "${RUSTC:-rustc}"; do
        there=$("$tool" --version 2> /dev/null | cut -d ' ' -f 2) || there=
        [ -n "$there" ] || echo "$tool is not there"
        [ -z "$there" ] || printf '%s\n' "$(oldest)" "$there" | sort -VC || echo "$tool $there is too old"
    done
}
needs_rust() {
    wrong=$(wrong_rust | paste -sd, | sed 's/,/, and /')
    [ -z "$wrong" ] || fail "$wrong: install Rust $(oldest) or a later one, by rustup (https://rustup.rs) or as Debian's package cargo-web"
}

# Prints a file with the version in the place of 0.0.0, and with its numbers in the macros of the header: filled FILE
filled() {
    rest=${version#*.}
    sed -E "s/0\.0\.0/$version/; s/(VERSION_MAJOR) 0\$/\1 $major/; s/(VERSION_MINOR) 0\$/\1 ${rest%.*}/; s/(VERSION_PATCH) 0\$/\1 ${rest#*.}/" "$1"
}

# Brings BUILD/KIND, a copy of the crates, up to date, and sets `room` to it: copied KIND
# Each kind of build has a copy, since it changes a file of it. What was proved is in the folders `out`: a new copy takes them from
# the copy of the default build or from the repository.
copied() {
    room=$build/$1
    mkdir -p "$room"
    cp "$top/crates.txt" "$room/"
    for crate in "$top"/crates/*; do
        copy=$room/crates/${crate##*/}
        mkdir -p "$copy"
        find "$copy" -mindepth 1 -maxdepth 1 ! -name out -exec rm -rf {} +
        find "$crate" -mindepth 1 -maxdepth 1 ! -name out -exec cp -a {} "$copy/" ';'
        for kept in "$build/default/crates/${crate##*/}/out" "$crate/out"; do
            [ -e "$copy/out" ] || [ ! -e "$kept" ] || cp -a "$kept" "$copy/"
        done
    done
    [ "$1" != avx2 ] || sed -i 's/^    false$/    true/' "$room/crates/octets/src/vector_width.rt"
}

# Compiles the calls for C by cargo, and sets `objects` to what comes out, one object: by_cargo NAME FLAG.. of rustc
# The crate has no dependency but the source of packages/rust. With `target`, it is compiled for that one.
by_cargo() {
    room=$build/cargo/$1
    shift
    RUSTFLAGS="$*" CARGO_TARGET_DIR=$room "${CARGO:-cargo}" build --quiet --release --locked --offline ${target:+--target $target} \
        --manifest-path "$top/packages/c/rust/Cargo.toml" || fail "cargo does not compile packages/c/rust"
    archive=$room/${target:+$target/}release/libaeadkit.a objects=$room/objects.o
    "$ar" p "$archive" "$("$ar" t "$archive" | grep '^aeadkit-')" > "$objects"
}

# Runs rt in a crate of the copy, and prints what was proved: proved CRATE WORD.. of rt
# rt proves before it builds, so what is linked is proved.
proved() {
    log=$room/$1.log
    (cd "$room/crates/$1" && shift && "${RT:-rt}" "$@") > "$log" 2>&1 || {
        tail -n 20 "$log" >&2
        exit 1
    }
    grep '^logic=' "$log" | tail -n 1
}

# Makes STATIC/libaeadkit.a and SHARED/libaeadkit.so of an archive of objects: linked OBJECTS STATIC SHARED
# Functions start at multiples of 64 bytes: otherwise the speed of one depends on the length of those before it. overlap.c stands in
# front of the calls that write beside what they read, and takes their names: that of the proved function gets `_proved` behind. In
# the archive the exported names are the only ones, and are hidden: a program or a plug-in that links it keeps them to itself. The
# archive also has the name of the version node, which the Rust crate refers to, so that no other major version is linked. In the
# shared library the functions of the C library are bound when it is loaded, and not on the stack of a first call.
linked() {
    mkdir -p "$2" "$3"
    overlap=$top/packages/c/src/overlap.c
    grep -oE 'aeadkit_[a-z_]+_proved' "$overlap" | sort -u | sed 's/\(.*\)_proved/\1 &/' > "$1.proved"
    $objcopy -w --redefine-syms="$1.proved" --set-section-alignment '.text.*=64' "$1" "$1.aligned"
    $cc -std=c11 -O2 -fPIC -ffreestanding -fno-stack-protector -falign-functions=64 -I"$top/packages/c/include" -c "$overlap" -o "$1.overlap"
    {
        grep -oE 'aeadkit_[a-z_]+' "$exports" | sed 's/.*/.globl &\n.hidden &/'
        echo '.section .rodata'
        sed -nE 's/^(AEADKIT_[0-9]+) .*/.globl \1\n.hidden \1\n\1: .byte 1/p' "$exports"
        echo '.section .note.GNU-stack,"",%progbits'
    } | $cc -x assembler -c - -o "$1.hidden"
    $ld -r -o "$1.o" --whole-archive "$1.aligned" --no-whole-archive "$1.overlap" "$1.hidden"
    $objcopy -w --localize-symbol='aeadkit_*_proved' "$1.o"
    rm -f "$2/libaeadkit.a"
    $ar rcs "$2/libaeadkit.a" "$1.o"
    $cc -shared -o "$3/libaeadkit.so.$version" -Wl,-soname,"libaeadkit.so.$major" -Wl,-z,now -Wl,--no-undefined-version \
        -Wl,--whole-archive "$1.aligned" -Wl,--no-whole-archive "$1.overlap" -Wl,--version-script="$exports"
    ln -sf "libaeadkit.so.$version" "$3/libaeadkit.so.$major"
    ln -sf "libaeadkit.so.$major" "$3/libaeadkit.so"
}
cc=cc ld=ld ar=ar objcopy=objcopy target=''

# Sets the tools to those for AArch64 of Debian, and the target to AArch64, if this machine is another one.
tools_for_aarch64() {
    target=aarch64-unknown-linux-gnu
    [ "$(uname -m)" != aarch64 ] || return 0
    cc=aarch64-linux-gnu-gcc ld=aarch64-linux-gnu-ld ar=aarch64-linux-gnu-ar objcopy=aarch64-linux-gnu-objcopy
}

# Sets these tools to those of the kit, for AArch64: its clang is each of them under another name, and the types of overlap.c are
# its own. No C library for that processor is needed, and none is linked: memcpy, memmove, memset and bcmp are those of the program,
# of glibc as of musl.
tools_of_kit() {
    llvm=$build/llvm
    mkdir -p "$llvm"
    echo 'typedef __SIZE_TYPE__ size_t;' > "$llvm/stddef.h"
    for type in uint8 uint32 uint64 uintptr; do
        echo "typedef __$(echo $type | tr '[:lower:]' '[:upper:]')_TYPE__ ${type}_t;"
    done > "$llvm/stdint.h"
    for name in clang ld.lld llvm-ar llvm-objcopy; do
        ln -sfn "$(kit)/toolchain/bin/clang" "$llvm/$name"
    done
    cc="$llvm/clang --target=aarch64-unknown-linux-gnu --no-default-config -Qunused-arguments -fuse-ld=lld -nostdlib -nostdinc -isystem $llvm"
    ld="$llvm/ld.lld -m aarch64linux" ar=$llvm/llvm-ar objcopy=$llvm/llvm-objcopy
}

# Prints the folder of the kit.
kit() {
    dirname "$(dirname "$(realpath "$(command -v rt)")")"
}

# Lays out the header, and what pkg-config and CMake read.
interface() {
    mkdir -p "$prefix/include" "$prefix/lib/pkgconfig" "$prefix/lib/cmake/aeadkit"
    filled "$top/packages/c/include/aeadkit.h" > "$prefix/include/aeadkit.h"
    filled "$top/packages/c/aeadkit.pc" > "$prefix/lib/pkgconfig/aeadkit.pc"
    for file in $(cd "$top" && find packages/c -name '*.cmake'); do
        filled "$top/$file" > "$prefix/lib/cmake/aeadkit/${file##*/}"
    done
}

# Fails, before anything is compiled, at builds that cannot stand in this prefix, and at missing tools.
buildable() {
    if [ "$from" = rust ]; then needs_rust; else needs_rt; fi
    for kind in $builds; do
        case $from-$kind in
        *-default | *-avx2 | rust-avx512) needs cc:gcc ld:binutils ar:binutils objcopy:binutils
            [ "$from" = kit ] || [ "$(uname -m)" = x86_64 ] || fail "BUILDS=\"$builds\": on this machine build aarch64"
            wanted=x86_64 ;;
        *-aarch64)
            [ "$builds" = aarch64 ] || fail "BUILDS=\"$builds\": a prefix is for one processor, so build aarch64 alone, into another PREFIX"
            [ "$from" = kit ] || aarch64_by_cargo
            wanted=aarch64 ;;
        kit-avx512) fail "BUILDS=\"$builds\": the kit does not compile for AVX-512: give FROM=rust" ;;
        *) fail "BUILDS=\"$builds\": there is no build '$kind', but default, avx2, aarch64 and, with FROM=rust, avx512" ;;
        esac
    done
    there=$(processor "$prefix/lib/libaeadkit.so")
    [ "$there" = none ] || [ "$there" = "$wanted" ] || fail "$prefix has the library for $there: give another PREFIX for $wanted"
}

# Fails unless cargo can compile for AArch64, and the tools for what it compiled are there.
aarch64_by_cargo() {
    tools_for_aarch64
    needs "$cc:gcc-aarch64-linux-gnu" "$objcopy:binutils-aarch64-linux-gnu"
    core=$(find "$("${RUSTC:-rustc}" --print target-libdir --target "$target")" -name 'libcore-*' 2> /dev/null || true)
    [ -n "$core" ] || fail "${RUSTC:-rustc} has no library for $target: let rustup add it (rustup target add $target), or install Debian's" \
        "cargo-web and libstd-rust-web-dev:arm64, after dpkg --add-architecture arm64, and set RUSTC=/usr/bin/rustc"
}

# Prints the packages of Debian that `make check` needs and that are not there.
missing() {
    for tool in cc:gcc c++:g++ ld:binutils make:make cmake:cmake pkg-config:pkg-config python3:python3 groff:groff \
        $([ "$from" = rust ] || echo node:nodejs npm:npm wasm-dis:binaryen); do
        command -v "${tool%:*}" > /dev/null || echo "${tool#*:}"
    done
    [ -z "$(wrong_rust)" ] || echo cargo-web
    command -v rustfmt > /dev/null || echo rustfmt-web
    "${PYTHON:-python3}" -c 'import setuptools' 2> /dev/null || echo python3-setuptools
    [ -e "$("${PYTHON:-python3}" -c 'import sysconfig; print(sysconfig.get_path("include"))' 2> /dev/null)/Python.h" ] || echo python3-dev
}

# Fails if `make check` would, for want of a tool or since the library in this prefix is for another processor.
ready() {
    packages=$(missing)
    # shellcheck disable=SC2086
    [ -z "$packages" ] || fail "tools for the tests are not there: install" $packages
    native
}

# Fails if the library in this prefix does not run on this machine.
native() {
    there=$(processor "$prefix/lib/libaeadkit.so")
    [ "$there" = none ] || [ "$there" = "$(uname -m)" ] || fail "$prefix has the library for $there: give another PREFIX, or make check-aarch64"
}

# Prints the processor of an ELF file: x86_64, aarch64, another one's number, or none if there is no file.
processor() {
    [ -e "$1" ] || { echo none; return; }
    case $(od -An -tu2 -j18 -N2 "$1" | tr -d ' ') in
    62) echo x86_64 ;;
    183) echo aarch64 ;;
    *) echo "another processor" ;;
    esac
}

# Compiles the library for one of BUILDS, and sets `objects` to what comes out: compiled KIND
# For AArch64 there is no second build: that for neoverse-v2 takes more instructions for AES, and no loader would choose it.
compiled() {
    case $from-$1 in
    rust-default) by_cargo default -C target-cpu=x86-64-v2 ;;
    rust-avx2) by_cargo avx2 -C target-cpu=x86-64-v3 ;;
    rust-avx512) by_cargo avx512 -C target-cpu=x86-64-v4 ;;
    rust-aarch64)
        tools_for_aarch64
        by_cargo aarch64 ;;
    kit-*)
        copied "$1"
        words=''
        [ "$1" != avx2 ] || words=--cpu=x86-64-v3
        [ "$1" != aarch64 ] || words='--target aarch64-unknown-linux-gnu'
        # shellcheck disable=SC2086
        proved capi lib $words
        [ "$1" != aarch64 ] || tools_of_kit
        objects=$room/crates/capi/out/libcapi.a ;;
    esac
}

library() {
    builds=${BUILDS:-default avx2}
    buildable
    interface
    # A build for a newer processor that stays from an earlier run would be loaded in place of this library.
    for level in x86-64-v3 x86-64-v4; do
        rm -f "$prefix/lib/$level/libaeadkit.a" "$prefix/lib/glibc-hwcaps/$level/libaeadkit.so"*
    done
    for kind in $builds; do
        compiled "$kind"
        case $kind in
        avx2) static=$prefix/lib/x86-64-v3 shared=$prefix/lib/glibc-hwcaps/x86-64-v3 ;;
        avx512) static=$prefix/lib/x86-64-v4 shared=$prefix/lib/glibc-hwcaps/x86-64-v4 ;;
        *) static=$prefix/lib shared=$prefix/lib ;;
        esac
        linked "$objects" "$static" "$shared"
    done
}

# Builds the program for AVX2 if the system's loader takes the library for AVX2, and else the default one.
program() {
    kind=default cpu=''
    ! LC_ALL=C /lib64/ld-linux-x86-64.so.2 --help 2>&1 | grep -q '^ *x86-64-v3 (supported' || kind=avx2
    kind=${PROGRAM:-$kind}
    mkdir -p "$prefix/bin"
    if [ "$from" = rust ]; then
        needs_rust
        [ "$kind" = default ] || cpu='-C target-cpu=x86-64-v3'
        RUSTFLAGS=$cpu CARGO_TARGET_DIR=$build/cargo/program "${CARGO:-cargo}" build --quiet --release \
            --manifest-path "$top/packages/rust/program/Cargo.toml" || fail "cargo does not compile packages/rust/program"
        install "$build/cargo/program/release/aeadkit" "$prefix/bin/aeadkit"
        return
    fi
    [ "$kind" = default ] || cpu=--cpu=x86-64-v3
    copied "$kind"
    proved aeadkit run $cpu -- --version
    install "$room/crates/aeadkit/out/aeadkit" "$prefix/bin/aeadkit"
}

# Lays out the package for JavaScript, with a module whose 64-bit addresses are lowered to those that every host has: javascript MODULE
javascript() {
    folder=$prefix/share/aeadkit/javascript
    mkdir -p "$folder"
    for file in README.md package.json; do
        filled "$top/packages/javascript/$file" > "$folder/$file"
    done
    cp "$top"/packages/javascript/*.mjs "$top"/packages/javascript/*.mts "$folder/"
    "$top/packages/javascript/lower.sh" "$1" "$folder/aeadkit.wasm"
    python3 "$top/tools/build/lanes.py" "$folder/aeadkit.wasm"
}

# The kit's compiler, in a copy of the kit, gets a word and a step before it. Vectors are compiled to simd128: otherwise they are
# compiled a lane at a time, and AES-GCM is 10 times slower. And look-ups become instructions: the kit writes them as loads from
# addresses that depend on secrets.
wasm() {
    [ "$from" = kit ] || fail "the module for JavaScript is built by the kit alone: leave FROM=$from out"
    needs_rt
    needs wasm-dis:binaryen wasm-as:binaryen
    copied wasm
    sed -i 's/^capi staticlib:/capi wasm64:/' "$room/crates.txt"
    kit=$(kit)
    clang=$room/kit/toolchain/bin/clang
    rm -rf "$room/kit"
    mkdir "$room/kit"
    ln -s "$kit"/* "$room/kit/"
    rm "$room/kit/bin" "$room/kit/toolchain"
    cp -rs "$kit/bin" "$kit/toolchain" "$room/kit/"
    cp --remove-destination "$kit/bin/rt" "$kit/bin/rtlib.py" "$room/kit/bin/"
    rm "$clang"
    cat > "$clang" << END
#!/bin/sh
set -eu
clang="$kit/toolchain/bin/clang"
case " \$* " in *' -x ir module.bc '*)
    "\$clang" --target=wasm64-unknown-unknown --no-default-config -S -emit-llvm -Xclang -disable-llvm-passes -x ir module.bc -o module.ll
    python3 "$top/tools/build/swizzle.py" < module.ll > module.bc ;;
esac
exec "\$clang" "\$@" -msimd128
END
    chmod +x "$clang"
    PATH=$room/kit/bin:$PATH
    proved capi lib
    javascript "$room/crates/capi/out/capi.wasm"
}

# Copies what the library is compiled of by this script with FROM=rust, without a repository: sources FOLDER
sources() {
    mkdir -p "$1"
    tar -C "$top" -c tools/build/lib.sh crates/command/src/version.rt packages/c/aeadkit.pc packages/c/cmake packages/c/exports.map \
        packages/c/include packages/c/src packages/c/rust packages/rust/Cargo.toml packages/rust/src | tar -C "$1" -x
}

# Builds the wheel over the prefix, for the processor of its archive: wheel FOLDER
# The extension is for the stable ABI of Python, so the headers of this machine's Python serve for another processor too; those of
# Debian include one from a folder that is named after the processor. Every pip for Python 3.11 knows the tag, which says 2.17 of glibc.
wheel() (
    room=$build/python
    rm -rf "$room"
    cp -R "$top/packages/python" "$room"
    rm -rf "$room/build"
    processor=x86_64
    ! LC_ALL=C readelf -h "$prefix/lib/libaeadkit.a" | grep -q AArch64 || processor=aarch64
    compiler=cc
    [ $processor = "$(uname -m)" ] || compiler=$processor-linux-gnu-gcc
    ln -s "/usr/include/$(uname -m)-linux-gnu" "$room/$processor-linux-gnu"
    umask 022
    cd "$room"
    AEADKIT_PREFIX=$prefix SOURCE_DATE_EPOCH=${SOURCE_DATE_EPOCH:-400000000} CC=$compiler LDSHARED="$compiler -shared" CFLAGS="-I$room" \
        "${PYTHON:-python3}" setup.py -q bdist_wheel -p "manylinux_2_17_$processor" -d "$1" > log 2>&1 || {
        tail -n 20 log >&2
        exit 1
    }
    ! readelf -VW build/lib*/aeadkit/*.so | grep -E 'GLIBC_2\.(1[89]|[2-9][0-9])' >&2
)

# Packs a folder into a tarball, with the time of the commit, one owner and one order: packed FOLDER FILE
packed() {
    tar -C "$(dirname "$1")" --sort=name --mtime="@$SOURCE_DATE_EPOCH" --owner=0 --group=0 --numeric-owner --mode=u=rwX,go=rX --format=gnu -c \
        "${1##*/}" | gzip -9n > "$2"
}

# Packs the source distribution of the Python package, with the sources that cargo compiles when it is installed: source_distribution FOLDER
source_distribution() (
    room=$build/python-source
    rm -rf "$room"
    cp -R "$top/packages/python" "$room"
    rm -rf "$room/build"
    sources "$room/library"
    umask 022
    cd "$room"
    env -u AEADKIT_PREFIX "${PYTHON:-python3}" setup.py -q sdist -d packed > log 2>&1 || {
        tail -n 20 log >&2
        exit 1
    }
    tar -xzf "packed/aeadkit-$version.tar.gz"
    packed "$room/aeadkit-$version" "$1/aeadkit-$version.tar.gz"
)

# Packs a tarball for C and a wheel for each processor, the crate, the source distribution for Python and, if the kit is asked for, the npm
# package into BUILD/dist, with their sums. The same commit gives the same bytes in any folder.
dist() {
    needs tar:tar gzip:gzip aarch64-linux-gnu-gcc:gcc-aarch64-linux-gnu
    needs_rust
    [ "$from" = rust ] || needs npm:npm wasm-dis:binaryen wasm-as:binaryen
    "${PYTHON:-python3}" -c 'import setuptools, wheel' 2> /dev/null ||
        fail "${PYTHON:-python3} has no setuptools and wheel: install python3-setuptools, python3-wheel and python3-dev, or set PYTHON"
    SOURCE_DATE_EPOCH=${SOURCE_DATE_EPOCH:-$(git -C "$top" log -1 --format=%ct 2> /dev/null || true)}
    [ -n "$SOURCE_DATE_EPOCH" ] || fail "there is no commit whose time the packages could have: set SOURCE_DATE_EPOCH to a number of seconds"
    export SOURCE_DATE_EPOCH LC_ALL=C
    umask 022
    out=$build/dist builds_here=${BUILDS:-default avx2}
    case $builds_here in *aarch64*) fail "BUILDS=\"$builds_here\": dist makes the packages for AArch64 in any case, so name those for x86-64" ;; esac
    rm -rf "$out"
    mkdir -p "$out"
    for processor in x86_64 aarch64; do
        prefix=$build/aeadkit-$version-$processor-linux BUILDS=$builds_here
        [ $processor = x86_64 ] || BUILDS=aarch64
        rm -rf "$prefix"
        mkdir "$prefix"
        library
        cp "$top/packages/c/README.md" "$prefix/"
        packed "$prefix" "$out/${prefix##*/}.tar.gz"
        wheel "$out"
    done
    source_distribution "$out"
    (cd "$top/packages/rust" && CARGO_TARGET_DIR="$build/cargo" "${CARGO:-cargo}" package --quiet --offline --no-verify --allow-dirty)
    cp "$build/cargo/package/aeadkit-$version.crate" "$out/"
    if [ "$from" = kit ]; then
        wasm
        (cd "$out" && npm pack --silent "$prefix/share/aeadkit/javascript")
    else
        echo "left out: the npm package, whose module the kit alone builds"
    fi
    (cd "$out" && sha256sum -- * > ../SHA256SUMS && mv ../SHA256SUMS .)
}

# Compares two folders that dist made, perhaps in different places and at different times: same FOLDER FOLDER
same() {
    for folder in "$@"; do
        [ -e "$folder/SHA256SUMS" ] || fail "$folder has no SHA256SUMS: give two folders that make dist made"
        (cd "$folder" && sha256sum --quiet -c SHA256SUMS) || fail "$folder has other files than its SHA256SUMS says"
    done
    diff "$1/SHA256SUMS" "$2/SHA256SUMS" || fail "these artefacts differ"
    echo "ok: $(wc -l < "$1/SHA256SUMS") artefacts are the same, byte for byte"
}

# Builds the default library again, in another folder, and compares it with that in the prefix.
again() {
    build=$build/another/folder
    mkdir -p "$build"
    [ "$from" = kit ] || { sources "$build" && top=$build; }
    compiled default
    linked "$objects" "$build/lib" "$build/lib"
    for file in libaeadkit.a libaeadkit.so; do
        cmp "$build/lib/$file" "$prefix/lib/$file" || fail "$file is not the same if it is built in another folder"
    done
    rm -rf "$build"
    echo "ok: the library is the same, byte for byte, if it is built in another folder"
}

# Runs each vector file and the test of overlaps over an archive, and compares the results of 20,000 random cases with those of the first
# archive: compared NAME ARCHIVE
compared() {
    compile="cc -std=c11 -O2 -pthread -I$prefix/include"
    for test in packages/c/tests/vectors packages/c/tests/overlap tools/build/results; do
        $compile "$top/$test.c" "$2" -o "$out/${test##*/}"
    done
    for file in "$top"/docs/*.vectors; do
        "$out/vectors" "$file" > "$out/log" || fail "$1: ${file##*/} fails: $(cat "$out/log")"
    done
    "$out/overlap" > "$out/log" || fail "$1: overlap.c fails: $(cat "$out/log")"
    "$out/results" 20000 > "$out/now" || fail "$1: the random cases fail: $(tail -n 1 "$out/now")"
    [ -e "$out/first" ] || cp "$out/now" "$out/first"
    diff "$out/first" "$out/now" || fail "$1: these results differ from those of the first build"
    echo "ok: $1: $(sha256sum < "$out/now" | cut -c 1-16)"
}

# Compares what the compilers build, for each processor that this machine runs: LLVM and Rattle's own compiler in the kit, unless cargo
# alone is asked for, and rustc; and by rustc also without any flag, with the vectors of no processor, and with tests for overflow and
# the assertions for debugging, which end the program. The tests that look at the stack are for LLVM's code alone.
compilers() {
    needs_rust
    needs cc:gcc ld:binutils ar:binutils objcopy:binutils
    out=$build/compilers kinds=default
    ! grep -qw avx2 /proc/cpuinfo || kinds="$kinds avx2"
    rm -rf "$out"
    mkdir -p "$out"
    for kind in $([ "$from" = rust ] || echo "$kinds"); do
        library=$prefix/lib/libaeadkit.a words=''
        [ "$kind" = default ] || library=$prefix/lib/x86-64-v3/libaeadkit.a words=--cpu=x86-64-v3
        [ -e "$library" ] || continue
        compared "LLVM, $kind" "$library"
        copied "$kind"
        # shellcheck disable=SC2086
        proved capi lib --backend rattle $words
        mv "$room/crates/capi/out/libcapi.a" "$out/second"
        linked "$out/second" "$out" "$out"
        compared "Rattle's own compiler, $kind, at most $(sed -n 's/^built: .* stack-bytes=\([0-9]*\).*/\1/p' "$room/capi.log") bytes of stack" \
            "$out/libaeadkit.a"
    done
    from=rust
    ! grep -qw avx512vl /proc/cpuinfo || kinds="$kinds avx512"
    for kind in $kinds any portable checked; do
        case $kind in
        any) by_cargo any ;;
        portable) by_cargo portable --cfg aeadkit_portable ;;
        checked) by_cargo checked -C overflow-checks=on -C debug-assertions=on -C opt-level=1 ;;
        *) compiled "$kind" ;;
        esac
        linked "$objects" "$out" "$out"
        compared "rustc, $kind" "$out/libaeadkit.a"
    done
}

command=${1:-}
prefix=${2:-}
case $from in
kit | rust) ;;
*) fail "FROM=\"$from\": the library is compiled by the kit, which proves it (FROM=kit), or by cargo (FROM=rust)" ;;
esac
case $command in
library | program | wasm | ready | native | again | compilers)
    [ -n "$prefix" ] || fail "give a PREFIX"
    mkdir -p "$prefix"
    prefix=$(cd "$prefix" && pwd) ;;
esac
mkdir -p "$build"
case $command in
library | program | wasm | ready | native | dist | missing | again | compilers) $command ;;
same) same "$2" "$3" ;;
*) sed -n '2,7s/^# //p' "$0" >&2; exit 2 ;;
esac
