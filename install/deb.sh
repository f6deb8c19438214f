#!/bin/sh
# install/deb.sh FOLDER VERSION: FOLDER/quayrudder_VERSION_ARCHITECTURE.deb, of what `make install` puts below a folder outside the checkout,
# since rt ci takes no link in it.
set -eu
given=$1
version=$2
architecture=$(dpkg --print-architecture)
umask 022
rm -rf "$given"
mkdir -p "$given"
to=$(realpath "$given")
folder=$(mktemp -d)
trap 'rm -rf "$folder"' EXIT
chmod 755 "$folder"
mkdir -p "$folder/debian" "$folder/root/DEBIAN"
make --no-print-directory install DESTDIR="$folder/root" PREFIX=/usr LIBDIR="/usr/lib/$(dpkg-architecture -qDEB_HOST_MULTIARCH)"

# The packages that the command and the shared library are linked with.
printf 'Source: quayrudder\n\nPackage: quayrudder\nArchitecture: any\n' > "$folder/debian/control"
depends=$(cd "$folder" && dpkg-shlibdeps -O root/usr/bin/quayrudder root/usr/lib/*/libquayrudder.so.0 | sed -n 's/^shlibs:Depends=//p')

cd "$folder/root"
size=$(du -sk --exclude=DEBIAN . | cut -f 1)
cat > DEBIAN/control <<END
Package: quayrudder
Version: $version
Architecture: $architecture
Maintainer: Quayrudder maintainers <maintainers@users.noreply.quayrudder.example>
Installed-Size: $size
Depends: $depends
Recommends: python3-numpy
Suggests: python3-fabio, pkg-config
Section: science
Priority: optional
Description: proved software for a cold archive of X-ray frames
 The command quayrudder, the library behind it for C and Python, and the
 manual. Every answer of the library is proved: any bytes give an expanded
 frame or one numbered refusal, and a purge is allowed exactly where the
 ledger allows it.
END
echo 'activate-noawait ldconfig' > DEBIAN/triggers
echo "libquayrudder 0 quayrudder (>= $version)" > DEBIAN/shlibs
find usr -type f -exec md5sum {} + | sort -k 2 > DEBIAN/md5sums
dpkg-deb --root-owner-group --build . "$to" > /dev/null
echo "$given/quayrudder_${version}_$architecture.deb"
