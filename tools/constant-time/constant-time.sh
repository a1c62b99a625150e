#!/bin/sh
# Looks in the built library, or in the program, for conditional jumps and addresses that depend on secret bytes: in traces of QEMU,
# and with valgrind's memcheck.
set -eu
claimed="1 2 3 4 5 6 16 24 32"
for suite in 1 2 3 4 5 6; do claimed="$claimed $suite:aeadkit.(seal|open)-file"; done
suites="1 2 3 4 5 6 16 24 32"
calls='\S*'
lengths=whole
table='' record='' only='' memcheck=valgrind
program=default
! LC_ALL=C /lib64/ld-linux-x86-64.so.2 --help 2>&1 | grep -q '^ *x86-64-v3 (supported' || program=x86-64-v3
machine=$program
jobs=$(nproc)
usage() {
    echo "usage: constant-time.sh [options] PREFIX
  PREFIX            what make library or make install laid out, by the kit or by cargo. The default build and that for AVX2 are looked
                    at, if PREFIX has both and this machine runs both, and that for AVX-512 is not
  --builds WORDS    only these: default, x86-64-v3
  --short           memcheck looks at fewer lengths, and of suites with the same code not at each call
  --traces          without memcheck: rare branches are not found
  --memcheck WORDS  what runs memcheck, instead of 'valgrind'. A library for AArch64 is looked at without memcheck, unless this says
                    how to run one for that processor
  --suites WORDS    only these: 1 to 6 as in the header; 16, 24 and 32 are key wrap under a key of that length
  --calls REGEX     only the calls whose names match as a whole, such as 'open.*|seal'. Without the option all calls of the
                    library, and nothing of the program. Its commands have names of several words, such as 'aeadkit seal-file' and
                    'aeadkit unwrap --pad': 'aeadkit .*' looks at seal-file, open-file, wrap and unwrap, and '.*' at everything
  --claimed WORDS   what must have no site but the declared verdicts, '' for nothing: a word SUITE for all calls of the library
                    under this suite, and a word SUITE:REGEX for the calls, and the commands of the program, whose names match as a
                    whole, such as '1:aeadkit.*'. $claimed without the option
  --program BUILD   which build bin/aeadkit is, default or x86-64-v3; without the option the one that make builds on this machine
  --write FILE      writes the table there, and not to standard output
  --record FILE     puts what was looked at and found into this file, such as docs/constant-time.tsv, in the place of older rows
  --jobs N          as many programs at once
Prints for each suite and call how many instructions depend on a secret, and where they are. The status is 1 if what is claimed
has one, if known code is not judged as it should be, or if a run fails; 2 at wrong arguments." >&2
    exit 2
}
fail() {
    echo "constant-time.sh: $*" >&2
    exit 2
}
while [ $# -gt 1 ]; do
    case "$1" in
        --short) lengths=short; shift; continue ;;
        --traces) memcheck=''; shift; continue ;;
        --memcheck) memcheck=$2 ;;
        --builds) only=$2 ;;
        --suites) suites=$2 ;;
        --calls) calls=$2 ;;
        --claimed) claimed=$2 ;;
        --program) program=$2 ;;
        --write) table=$2 ;;
        --record) record=$2 ;;
        --jobs) jobs=$2 ;;
        *) usage ;;
    esac
    shift 2
done
[ $# = 1 ] || usage
[ -e "$1/lib/libaeadkit.so" ] || fail "$1/lib/libaeadkit.so is not there: give a PREFIX with a library"
prefix=$(cd "$1" && pwd)
here=$(cd "$(dirname "$0")" && pwd)

# The tools for the library's processor.
case $(od -An -tu2 -j18 -N2 "$prefix/lib/libaeadkit.so" | tr -d ' ') in
62) processor=x86_64 cross='' known=known.c flags=-mssse3 qemu="qemu-x86_64 -cpu max" native='' builds=default ;;
183)
    processor=aarch64 cross=aarch64-linux-gnu- known=known_aarch64.c flags='' qemu="qemu-aarch64 -L /usr/aarch64-linux-gnu"
    native=$qemu builds=aarch64 program=none machine=none
    [ "$memcheck" != valgrind ] || memcheck='' ;;
*) fail "$prefix has a library for a processor that is not looked at: x86-64 and AArch64 are" ;;
esac
for tool in cc:gcc "${cross}gcc:gcc${cross:+-aarch64-linux-gnu}" "${cross}objdump:binutils" "qemu-$processor:qemu-user" valgrind:valgrind python3:python3; do
    command -v "${tool%:*}" > /dev/null || fail "${tool%:*} is not there: install ${tool#*:}"
done
room=$(mktemp -d)
trap 'rm -rf "$room"' EXIT

# The loader takes the build for a newer processor by itself if it stands below the other one, so each build gets a folder of its own.
hwcaps=$prefix/lib/glibc-hwcaps
if [ -e "$hwcaps/x86-64-v3/libaeadkit.so" ] && [ "$machine" = x86-64-v3 ]; then
    builds="default x86-64-v3"
elif [ $processor = x86_64 ]; then
    echo "left out: the build for AVX2, which is not in PREFIX or does not run on this machine"
fi
[ ! -e "$hwcaps/x86-64-v4" ] || echo "left out: the build for AVX-512, whose instructions neither QEMU nor valgrind has"
for build in $only; do
    echo " $builds " | grep -q " $build " || fail "there is no build $build here, but $builds"
done
builds=${only:-$builds}
for build in $builds; do
    mkdir "$room/$build"
    [ "$build" = x86-64-v3 ] && from=$hwcaps/$build || from=$prefix/lib
    cp -L "$from/libaeadkit.so" "$room/$build/"
done
cc -O2 -o "$room/traces" "$here/traces.c"
cc -O2 -shared -fPIC -o "$room/program.so" "$here/program.c"
# valgrind's headers are the same for each processor, and do not lie where a compiler for another one looks.
mkdir "$room/include"
ln -s "$(echo '#include <valgrind/valgrind.h>' | cc -E - | sed -n 's/^# [0-9]* "\(.*\)\/valgrind.h".*/\1/p' | head -n 1)" "$room/include/valgrind"
# shellcheck disable=SC2086
"${cross}gcc" -O2 $flags -fno-pie -c -o "$room/known.o" "$here/$known"
"${cross}gcc" -O2 -fno-pie -c -I"$prefix/include" -I"$room/include" -o "$room/calls.o" "$here/calls.c"
for build in $builds; do
    name=$("${cross}objdump" -p "$room/$build/libaeadkit.so" | awk '$1 == "SONAME" { print $2 }')
    ln -s libaeadkit.so "$room/$build/$name"
    [ "$build" != "$program" ] || [ ! -e "$prefix/bin/aeadkit" ] || cp "$prefix/bin/aeadkit" "$room/$build/"
    "${cross}gcc" -no-pie -o "$room/$build/calls" "$room/calls.o" "$room/known.o" "$room/$build/libaeadkit.so" \
        -Wl,-rpath,"$room/$build" -Wl,-z,now
done
for version in 1 2 3 4 5 none; do
    [ $version != none ] || fail "this $qemu takes no version of the plugin"
    cc -O2 -shared -fPIC -DVERSION=$version -o "$room/plugin.so" "$here/plugin.c"
    ! $qemu -plugin "$room/plugin.so,fd=1,off=1" "$room/${builds%% *}/calls" cells > /dev/null 2>&1 || break
done
python3 "$here/table.py" --room "$room" --builds "$builds" --suites "$suites" --calls "$calls" --lengths $lengths \
    --claimed "$claimed" --verdicts "$here/verdicts.txt" --write "$table" --record "$record" --jobs "$jobs" --qemu "$qemu" \
    --native "$native" --memcheck "$memcheck" --objdump "${cross}objdump" \
    --commit "$(git -C "$here" rev-parse --short=8 HEAD 2> /dev/null || echo unknown)"
