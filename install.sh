#!/bin/sh
# ./install.sh PREFIX: installs the library for C and C++ below PREFIX: include/chips69000.h, lib/libchips69000.a and
# lib/pkgconfig/chips69000.pc. PREFIX is made where it is not there. The archive is the one that `rt lib` in crates/chips69000
# has proved and built; where it is missing nothing is installed. Status 0 where all three files are there, else 1.
set -u
if [ $# -ne 1 ] || [ -z "$1" ]; then
    echo 'usage: ./install.sh PREFIX' >&2
    exit 1
fi
root=$(CDPATH='' cd -- "$(dirname -- "$0")" && pwd -P) || exit 1
header=$root/include/chips69000.h
archive=$root/crates/chips69000/out/libchips69000.a
if [ ! -f "$archive" ]; then
    echo "$0: $archive is not there: run rt lib in $root/crates/chips69000" >&2
    exit 1
fi
mkdir -p -- "$1" || exit 1
prefix=$(CDPATH='' cd -- "$1" && pwd -P) || exit 1
mkdir -p -- "$prefix/include" "$prefix/lib/pkgconfig" || exit 1
# a character that sed or pkg-config would read otherwise gets a backslash
quoted=$(printf '%s\n' "$prefix" | sed -e 's/ /\\ /g' -e 's/[\\&|]/\\&/g') || exit 1
cp -- "$header" "$prefix/include/chips69000.h" || exit 1
cp -- "$archive" "$prefix/lib/libchips69000.a" || exit 1
version=$(sed -n 's/^#define CHIPS69000_VERSION \([0-9]*\)$/\1/p' "$header") || exit 1
sed -e "s|@PREFIX@|$quoted|" -e "s|@VERSION@|$version|" "$root/chips69000.pc.in" >"$prefix/lib/pkgconfig/chips69000.pc" || exit 1
chmod 644 "$prefix/include/chips69000.h" "$prefix/lib/libchips69000.a" "$prefix/lib/pkgconfig/chips69000.pc" || exit 1
echo "installed below $prefix: include/chips69000.h, lib/libchips69000.a, lib/pkgconfig/chips69000.pc"
