#!/bin/sh
# build.sh [LIBHTML_FFI_A]: proves and builds the library, and makes of it, in bindings/out: libfigpliers.a, which stands alone;
# libfigpliers.so, with only the names of fig_ to be seen; a Debian package; a wheel for Python. Needs the kit, a C compiler, ar, nm,
# objcopy, strip, dpkg-deb and python3. With a library that was built before, it builds none.
set -eu
here=$(cd "$(dirname "$0")" && pwd)
top=$(dirname "$here")
kit=${KIT:-$(dirname "$(dirname "$(readlink -f "$(command -v rt)")")")}
out=$here/out
version=0.1.0
library=${1:-$top/crates/html_ffi/out/libhtml_ffi.a}
[ $# -gt 0 ] || (cd "$top/crates/html_ffi" && rt lib)
rm -rf "$out"
mkdir -p "$out/objects" "$out/licences"

# What is linked in, and its licences: Figpliers; of the kit its library of Rust's names, memchr, thiserror, and the C file that
# takes memory.
cp "$top/LICENSE" "$out/licences/LICENSE"
cp "$kit/rattle/memchr/LICENSE-MIT" "$out/licences/LICENSE-memchr"
cp "$kit/rattle/thiserror/LICENSE" "$out/licences/LICENSE-thiserror"

# one object, of which only the names of fig_ are seen
(cd "$out/objects" && ar x "$library" && ar x "$kit/c/liblibc_c.a")
ld -r -o "$out/figpliers.o" "$out"/objects/*.o
objcopy --wildcard --keep-global-symbol='fig_*' --strip-debug "$out/figpliers.o"
ar rcsD "$out/libfigpliers.a" "$out/figpliers.o"
${CC:-cc} -shared -o "$out/libfigpliers.so.0" -Wl,--whole-archive "$out/libfigpliers.a" -Wl,--no-whole-archive \
    -Wl,--version-script="$here/exports.map" -Wl,-soname,libfigpliers.so.0 -Wl,-z,relro,-z,now,-z,noexecstack -Wl,--gc-sections
strip --strip-unneeded "$out/libfigpliers.so.0"
ln -s libfigpliers.so.0 "$out/libfigpliers.so"
rm -r "$out/objects" "$out/figpliers.o"

python3 "$here/python/wheel.py" "$out/libfigpliers.so.0" "$out" "$out"/licences/*

# the Debian package
root=$out/debian
place=$root/usr/lib/x86_64-linux-gnu
mkdir -p "$root/DEBIAN" "$place/pkgconfig" "$root/usr/include" "$root/usr/share/doc/figpliers"
install -m644 "$out/libfigpliers.a" "$out/libfigpliers.so.0" "$place/"
ln -s libfigpliers.so.0 "$place/libfigpliers.so"
install -m644 "$here/c/figpliers.h" "$root/usr/include/"
cat "$out"/licences/* > "$root/usr/share/doc/figpliers/copyright"
cat > "$place/pkgconfig/figpliers.pc" <<END
prefix=/usr
Name: figpliers
Description: a verified HTML parser
Version: $version
Libs: -L\${prefix}/lib/x86_64-linux-gnu -lfigpliers
Cflags: -I\${prefix}/include
END
cat > "$root/DEBIAN/control" <<END
Package: figpliers
Version: $version
Architecture: amd64
Maintainer: The Figpliers Developers <figpliers@localhost>
Depends: libc6
Section: libdevel
Priority: optional
Description: verified HTML parser, as a C library
 The normal text of HTML pages, their trees, and what a sanitizer keeps
 of them. Each call is proved against the rules of the HTML Standard.
END
chmod -R u=rwX,go=rX "$root"
dpkg-deb --root-owner-group -Zxz --build "$root" "$out/figpliers_${version}_amd64.deb" > /dev/null
rm -r "$root"
ls -l "$out"
