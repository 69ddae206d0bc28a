#!/bin/sh
# build.sh: makes liblapyrei.a, liblapyrei.so.1 and lapyrei.pc in OUT (c/out).
#
# LAPYREI_A is the static library of crates/lapyrei, which `rt lib` makes there once it is proved; KIT is Rattle's kit, whose
# two small libraries of C it needs (malloc and free under Rattle's names). PREFIX is where it will be installed (/usr). One
# that was compiled without a proof asks for the sanitizer of addresses, and gets no_sanitizer.c.
set -eu
here=$(cd "$(dirname "$0")" && pwd)
case ${1-} in
    --help | -h) sed -n '2,/^set -eu/{/^set -eu/d;s/^# \{0,1\}//;p}' "$0"; exit ;;
    --version) echo "build.sh $(cat "$here/../VERSION")"; exit ;;
esac
: "${KIT:=/opt/rattle}" "${OUT:=$here/out}" "${PREFIX:=/usr}" "${LAPYREI_C:=$here/lapyrei.c}"
: "${LAPYREI_A:=$here/../crates/lapyrei/out/liblapyrei.a}" "${CC:=cc}" "${AR:=ar}"
mkdir -p "$OUT/objects"
cd "$OUT/objects"
rm -f ./*.o
$CC -std=gnu11 -O2 -fPIC -fvisibility=hidden -Wall -Wextra -I"$here" -include "$here/export.h" -c "$LAPYREI_C" -o shim.o
$AR x "$LAPYREI_A"
if nm "$LAPYREI_A" | grep -q __asan_init; then $CC -std=gnu11 -O2 -fPIC -w -c "$here/no_sanitizer.c" -o no_sanitizer.o; fi
# Of the kit only what is called is taken in.
$CC -nostdlib -r -o whole.o ./*.o "$KIT/c/libos_c.a" "$KIT/c/liblibc_c.a"
rm -f "$OUT/liblapyrei.a"
if command -v objcopy >/dev/null; then objcopy --keep-global-symbols="$here/symbols" whole.o; fi
$AR rcs "$OUT/liblapyrei.a" whole.o
$CC -shared -o "$OUT/liblapyrei.so.1" whole.o -lpthread -Wl,-z,defs -Wl,-soname,liblapyrei.so.1
ln -sf liblapyrei.so.1 "$OUT/liblapyrei.so"
sed -e "s|@PREFIX@|$PREFIX|" -e "s|@VERSION@|$(cat "$here/../VERSION")|" "$here/lapyrei.pc.in" > "$OUT/lapyrei.pc"
