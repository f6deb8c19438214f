#!/bin/sh
# install/install.sh QUAYRUDDER STATIC SHARED: puts everything below $DESTDIR$PREFIX; `make install` sets the variables.
set -eu
command=$1 static=$2 shared=$3
umask 022
here=$(dirname "$0")
root=$here/..
share=$PREFIX/share

# put FOLDER FILE..: files that are read.
put() {
    folder=$DESTDIR$1
    shift
    install -d "$folder"
    install -m 644 "$@" "$folder"
}

# completion SHELL FOLDER NAME
completion() {
    install -d "$DESTDIR$2"
    "$command" completions "$1" > "$DESTDIR$2/$3"
}

install -d "$DESTDIR$PREFIX/bin"
install -s -m 755 "$command" "$DESTDIR$PREFIX/bin/quayrudder"

put "$LIBDIR" "$static" "$(dirname "$shared")/$SONAME"
ln -sf "$SONAME" "$DESTDIR$LIBDIR/libquayrudder.so"
put "$PREFIX/include" "$root/include/quayrudder.h"
install -d "$DESTDIR$LIBDIR/pkgconfig"
sed -e "s|@PREFIX@|$PREFIX|" -e "s|@LIBDIR@|$LIBDIR|" -e "s|@VERSION@|$VERSION|" \
    "$here/quayrudder.pc.in" > "$DESTDIR$LIBDIR/pkgconfig/quayrudder.pc"

put "$PYTHONDIR/quayrudder" "$root"/python/quayrudder/*.py "$root/python/quayrudder/py.typed" "$root/python/quayrudder/refusals.md"

"$here/man.sh" "$command" "$DESTDIR$share/man/man1" "$DOCDIR"
put "$DOCDIR" "$root/docs/MANUAL.md" "$root/docs/REFUSALS.md" "$root/docs/PEERS.md" "$root"/docs/report*.png
completion bash "$share/bash-completion/completions" quayrudder
completion zsh "$ZSHDIR" _quayrudder
completion fish "$share/fish/vendor_completions.d" quayrudder.fish
