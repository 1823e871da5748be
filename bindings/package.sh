#!/bin/sh
# Packs what bindings/build.sh built, for users who have no prover.
#
#     bindings/package.sh [--prefix PREFIX] [FOLDER]
#
# FOLDER is the one that build.sh was given, else bindings/out. FOLDER/package then has what a
# prefix such as /usr/local has: bin, include and lib with pkgconfig. Beside these are a wheel for
# Python and the crate for Rust, each with the library in it, and SHA256SUMS. With --prefix, bin,
# include and lib are also copied to PREFIX.
set -eu
prefix=
if [ "${1:-}" = --prefix ]; then
    prefix=$2
    shift 2
fi
here=$(CDPATH= cd -- "$(dirname -- "$0")" && pwd)
top=$(dirname -- "$here")
out=${1:-"$here/out"}
package="$out/package"
archive="$top/crates/daachorse_c/out/libdaachorse_c.a"
[ -f "$archive" ] && [ -f "$out/libdaachorse.so.1" ] || { echo "package.sh: run bindings/build.sh first" >&2; exit 2; }
heap="$(dirname -- "$(rt doc)")/c/liblibc_c.a"
version=$(sed -n 's/^#define DAACHORSE_VERSION "\(.*\)"$/\1/p' "$here/c/daachorse.h")

rm -rf "$package"
mkdir -p "$package/bin" "$package/include" "$package/lib/pkgconfig" "$package/rust"
cp "$here/c/daachorse.h" "$package/include"
cp "$out/libdaachorse.so.1" "$package/lib"
ln -s libdaachorse.so.1 "$package/lib/libdaachorse.so"

# One object, whose own names alone are global.
ld -r -o "$out/daachorse.o" --whole-archive "$archive" --no-whole-archive "$heap"
objcopy --wildcard --keep-global-symbol='daachorse_*' "$out/daachorse.o"
ar rcsD "$package/lib/libdaachorse.a" "$out/daachorse.o"

cat > "$package/lib/pkgconfig/daachorse.pc" <<END
prefix=\${pcfiledir}/../..

Name: daachorse
Description: Many patterns searched at once, by a proved library
Version: $version
Cflags: -I\${prefix}/include
Libs: -L\${prefix}/lib -ldaachorse
END

for program in daacfind daacindex daacgrep; do
    [ ! -x "$top/crates/$program/out/$program" ] || cp "$top/crates/$program/out/$program" "$package/bin"
done
cp -r "$here/rust/Cargo.toml" "$here/rust/build.rs" "$here/rust/src" "$package/lib/libdaachorse.a" "$package/rust"
if command -v python3 >/dev/null; then
    python3 "$here/python/wheel.py" "$out/libdaachorse.so.1" "$version" "$package"
else
    echo "package.sh: there is no python3, so there is no wheel"
fi
(cd "$package" && find . -type f | LC_ALL=C sort | xargs sha256sum > "$out/SHA256SUMS" && mv "$out/SHA256SUMS" .)
echo "package.sh: $package has the library $version"

if [ -n "$prefix" ]; then
    mkdir -p "$prefix"
    cp -a "$package/bin" "$package/include" "$package/lib" "$prefix"
    echo "package.sh: it is installed in $prefix"
fi
