#!/bin/sh
# Installs the programs that `rt run` has built, with units, man pages and sample settings.
#
#   PREFIX=/usr/local SYSCONFDIR=/etc DESTDIR= sh packaging/install.sh
#
# Settings that are there already stay as they are; the new samples lie beside the documentation.
set -eu
PREFIX=${PREFIX:-/usr/local}
SYSCONFDIR=${SYSCONFDIR:-/etc}
DESTDIR=${DESTDIR:-}
here=$(dirname "$0")
top=$here/..

for name in ovcache ovbgpd ovplay ovctl; do
    if ! [ -x "$top/crates/$name/out/$name" ]; then
        echo "install.sh: crates/$name/out/$name isn't there: rt run in crates/$name builds it" >&2
        exit 1
    fi
done

put() { # MODE FILE FOLDER
    install -d "$DESTDIR$3"
    install -m "$1" "$2" "$DESTDIR$3/"
}

put 755 "$top/crates/ovcache/out/ovcache" "$PREFIX/sbin"
put 755 "$top/crates/ovbgpd/out/ovbgpd" "$PREFIX/sbin"
put 755 "$top/crates/ovplay/out/ovplay" "$PREFIX/bin"
put 755 "$top/crates/ovctl/out/ovctl" "$PREFIX/bin"
put 644 "$here/ovcache.8" "$PREFIX/share/man/man8"
put 644 "$here/ovbgpd.8" "$PREFIX/share/man/man8"
put 644 "$here/ovplay.1" "$PREFIX/share/man/man1"
put 644 "$here/ovctl.1" "$PREFIX/share/man/man1"

for page in "$top"/README.md "$top"/LICENSE "$top"/CHANGELOG.md "$top"/docs/*.md; do
    put 644 "$page" "$PREFIX/share/doc/kenyodla"
done

for unit in ovcache.service ovbgpd.service; do
    install -d "$DESTDIR$PREFIX/lib/systemd/system"
    sed -e "s|@PREFIX@|$PREFIX|g" -e "s|@SYSCONFDIR@|$SYSCONFDIR|g" "$here/$unit" >"$DESTDIR$PREFIX/lib/systemd/system/$unit"
    chmod 644 "$DESTDIR$PREFIX/lib/systemd/system/$unit"
done

install -d "$DESTDIR/var/lib/kenyodla"
for sample in ovcache.toml ovbgpd.toml ovbgpd.commands; do
    put 644 "$here/$sample" "$PREFIX/share/doc/kenyodla/samples"
    if ! [ -e "$DESTDIR$SYSCONFDIR/kenyodla/$sample" ]; then
        put 644 "$here/$sample" "$SYSCONFDIR/kenyodla"
    fi
done
