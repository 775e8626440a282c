#!/bin/bash
# build-deb.sh FOLDER: a Debian package of what `make install` installs, in this folder, with the program that is built,
# or the one that PROGRAM names.
set -euo pipefail
folder=$(realpath -m "$1")
cd "$(dirname "$0")/.."
umask 022

program=${PROGRAM:-crates/jc_cli/out/jc_cli}
version=$("$program" --version | cut -d ' ' -f 2)
architecture=$(dpkg --print-architecture)
libc=$(objdump --dynamic-syms "$program" | grep -o 'GLIBC_[0-9.]*' | sort -uV | tail -n 1)
tree=$folder/deb
rm -rf "$tree"
mkdir -p "$tree/DEBIAN"

# The units of a package are below /usr/lib, and the documents are compressed.
env -u MAKEFLAGS -u MAKELEVEL make --silent -o "$program" install PROGRAM="$program" DESTDIR="$tree" PREFIX=/usr
strip "$tree/usr/bin/journal-collect"
# Modules are compiled by the Python of the machine that has the package.
find "$tree" -name __pycache__ -prune -exec rm -r {} +
documents=$tree/usr/share/doc/journal-collect
gzip -9n "$tree"/usr/share/man/man*/* "$documents"/*.md
install -m 644 deploy/debian/copyright "$documents"
sed "s/@version@/$version/" deploy/debian/changelog | gzip -9n > "$documents/changelog.gz"

install -m 755 deploy/debian/{config,postinst,prerm,postrm} "$tree/DEBIAN"
install -m 644 deploy/debian/{triggers,templates} "$tree/DEBIAN"
(cd "$tree" && find usr -type f -exec md5sum {} +) > "$tree/DEBIAN/md5sums"
size=$(du --summarize --block-size=1K --apparent-size "$tree" | cut -f 1)
sed "s/@version@/$version/; s/@libc@/${libc#GLIBC_}/; s/@architecture@/$architecture/; s/@size@/$size/" \
    deploy/debian/control > "$tree/DEBIAN/control"
dpkg-deb --root-owner-group --build "$tree" "$folder/journal-collect_${version}_$architecture.deb"
rm -rf "$tree"
