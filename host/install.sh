#!/bin/sh
# Installs libpil.a, its headers and pil.pc under a prefix, or removes them. DESTDIR is put before the prefix when files
# are written, and is not in them. Use: install.sh install|uninstall PREFIX [DESTDIR]
cd "$(dirname "$0")" || exit 1
headers="pil.h pil_kinds.h pil_names.h"
lib=../target/staticlib/libpil.a
prefix=$2
refuse() {
    echo "$1" >&2
    exit 1
}
case $prefix in
*[!A-Za-z0-9/._+=@:,~-]*) refuse "PREFIX has a character that pil.pc cannot carry: '$prefix'" ;;
/*) ;;
*) refuse "PREFIX is a path from the root, as /usr/local; this is '$prefix'" ;;
esac
case $3 in
"" | /*) ;;
*) refuse "DESTDIR is a path from the root; this is '$3'" ;;
esac
to=$3$prefix
version() {
    sed -n 's/^#define PIL_VERSION_[MP][A-Z]* //p' pil.h | paste -sd .
}
case $1 in
install)
    install -d "$to/include" "$to/lib/pkgconfig" || exit 1
    # shellcheck disable=SC2086
    install -m 644 $headers "$to/include" && install -m 644 "$lib" "$to/lib" &&
        sed -e "s|@PREFIX@|$prefix|" -e "s|@VERSION@|$(version)|" pil.pc.in > "$to/lib/pkgconfig/pil.pc" &&
        echo "installed in $to: include/{$(echo $headers | tr ' ' ,)}, lib/libpil.a, lib/pkgconfig/pil.pc" ;;
uninstall)
    for header in $headers; do
        rm -f "$to/include/$header"
    done
    rm -f "$to/lib/libpil.a" "$to/lib/pkgconfig/pil.pc"
    echo "libpil.a, its headers and pil.pc are removed from $to" ;;
*) refuse "use: install.sh install|uninstall PREFIX [DESTDIR]" ;;
esac
