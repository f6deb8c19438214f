#!/bin/sh
# install/test.sh DEBS FOLDER: the package in DEBS installed below FOLDER, which is made anew, with nothing else there; used from there; and removed.
# Needs the example frame in target/example.
set -eu
deb=$(realpath "$1"/quayrudder_*.deb)
rm -rf "$2"
mkdir -p "$2/root/var/lib/dpkg/info" "$2/root/var/lib/dpkg/updates"
folder=$(realpath "$2")
root=$folder/root
examples=$(realpath "$(dirname "$0")/../examples")
frame=$(realpath target/example/example.sfrm)
touch "$root/var/lib/dpkg/status"

# The packages that it depends on are the machine's own.
package() {
    dpkg --root="$root" --force-depends --force-not-root --force-script-chrootless --log="$folder/dpkg.log" "$@" > "$folder/dpkg.txt" 2>&1 || { cat "$folder/dpkg.txt"; exit 1; }
}

must() {
    "$@" || { echo "deb-test: failed: $*" >&2; exit 1; }
}

package --install "$deb"
must dpkg --root="$root" --verify quayrudder

# The machine's own paths do not matter from here on.
library=$(dirname "$root"/usr/lib/*/libquayrudder.so.0)
export PATH="$root/usr/bin:$PATH" LD_LIBRARY_PATH="$library" PYTHONPATH="$root/usr/lib/python3/dist-packages"
export PKG_CONFIG_SYSROOT_DIR="$root" PKG_CONFIG_LIBDIR="$library/pkgconfig" PKG_CONFIG_ALLOW_SYSTEM_CFLAGS=1 PKG_CONFIG_ALLOW_SYSTEM_LIBS=1
must test "$(command -v quayrudder)" = "$root/usr/bin/quayrudder"
must test "quayrudder $(pkg-config --modversion quayrudder)" = "$(quayrudder --version)"
/usr/bin/python3 -B - "$root" <<'END'
import sys
from quayrudder import places
assert all(path.startswith(sys.argv[1]) for path in (places.__file__, places.library(), places.command()))
END
"$examples/run.sh" "$folder/examples" "$frame" $(pkg-config --cflags --libs quayrudder)
must sh -c "ldd '$folder/examples/read_frame' | grep -q 'libquayrudder.so.0 => $library/'"
cc "$examples/read_frame.c" $(pkg-config --cflags quayrudder) "$library/libquayrudder.a" -o "$folder/static"
must "$folder/static" "$frame"

# The shared library has the functions that the header declares, and shows no other.
grep -o 'qr_[a-z_]*(' "$root/usr/include/quayrudder.h" | tr -d '(' | sort -u > "$folder/declared.txt"
nm -D --defined-only "$library/libquayrudder.so.0" | awk '{print $3}' | sort > "$folder/shown.txt"
must diff "$folder/declared.txt" "$folder/shown.txt"
must test "$(wc -l < "$folder/shown.txt")" -ge 16

# A page and a completion for every command.
for name in $(quayrudder --help | sed -n '/^Commands:/,/^$/s/^  \([a-z-]*\) .*/\1/p' | grep -vx help); do
    must sh -c "MANPATH='$root/usr/share/man' man --warnings quayrudder-$name 2> '$folder/man.txt' | grep -q 'quayrudder $name'"
    must test ! -s "$folder/man.txt"
    must grep -q "quayrudder__${name%%-*}" "$root/usr/share/bash-completion/completions/quayrudder"
done
cd "$folder"
must test "$(bash -c '. "$1"; COMP_WORDS=(quayrudder may) COMP_CWORD=1; _quayrudder quayrudder; echo "${COMPREPLY[@]}"' - "$root/usr/share/bash-completion/completions/quayrudder")" = may-purge
must zsh -n "$root/usr/share/zsh/vendor-completions/_quayrudder"
must test "$(fish -c "source '$root/usr/share/fish/vendor_completions.d/quayrudder.fish'; complete -C 'quayrudder may'" | cut -f 1)" = may-purge

package --purge quayrudder
left=$(find "$root" -mindepth 1 -not -path "$root/var*")
must test -z "$left"
echo "deb-test: built, installed, used from C, Python and shell, and removed"
