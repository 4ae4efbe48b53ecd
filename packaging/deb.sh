#!/bin/bash
# deb.sh FOLDER: makes the Debian package of bin/ringd, and of what `make install` puts beside it, in FOLDER, and prints
# its path. It has the unit, the command cinoweta and its Python package, man pages, completions, settings and words as
# files of the operator's, and makes a user and a folder when it is installed. Nothing is built.
set -eu
umask 022
root=$(realpath "$(dirname "$0")/..")
folder=$(realpath "$1")
made=$(mktemp -d)
trap 'rm -rf "$made"' EXIT
chmod 755 "$made"
version=$(sed -n 's/^pub const VERSION: &str = "\(.*\)";$/\1/p' "$root/crates/ring_service/src/words.rt")
debian=$root/packaging/debian
commit=$(git -C "$root" rev-parse HEAD 2> /dev/null || echo unknown)
epoch=$(git -C "$root" log -1 --format=%ct 2> /dev/null || date +%s)

make -s -C "$root" install DESTDIR="$made" PREFIX=/usr > /dev/null
rm "$made"/usr/share/ringd/*.whl
if file -b "$made/usr/bin/ringd" | grep -q '^ELF'; then strip --strip-unneeded -R .comment -R .note "$made/usr/bin/ringd"; fi
install -D -m 644 "$made/usr/share/ringd/ringd.toml" "$made/etc/ringd.toml"
install -D -m 644 "$debian/default" "$made/etc/default/ringd"
printf '/etc/ringd.toml\n/etc/default/ringd\n' > "$made/conffiles"

package=$made/usr/lib/python3/dist-packages/cinoweta
mkdir -p "$package"
install -m 644 "$root"/clients/python/cinoweta/*.py "$root/clients/python/cinoweta/py.typed" "$package"
printf '#!/usr/bin/python3\nimport sys\n\nfrom cinoweta.command import main\n\nsys.exit(main())\n' > "$made/usr/bin/cinoweta"
chmod 755 "$made/usr/bin/cinoweta"

completions=$made/usr/share/bash-completion/completions
install -D -m 644 "$root/packaging/completions.bash" "$completions/ringd"
ln -s ringd "$completions/cinoweta"

# page: what `cinoweta --help` tells, as a man page.
page() {
    printf '.TH CINOWETA 1\n.SH NAME\ncinoweta \\- asks a ring of ringd, holds its locks, and copies its folder\n.SH DESCRIPTION\n.nf\n'
    COLUMNS=79 PYTHONPATH=$root/clients/python python3 -m cinoweta --help | sed 's/\\/\\e/g; s/-/\\-/g; s/^[.'"'"']/\\\&&/'
    printf '.fi\n.SH SEE ALSO\nringd(8)\n'
}
mkdir -p "$made/usr/share/man/man1"
page > "$made/usr/share/man/man1/cinoweta.1"
gzip -9n "$made"/usr/share/man/man*/*

doc=$made/usr/share/doc/ringd
install -D -m 644 "$debian/copyright" "$doc/copyright"
printf 'ringd (%s-1) unstable; urgency=medium\n\n  * See CHANGELOG.md of the repository, at commit\n    %s.\n\n -- %s  %s\n' "$version" "$commit" \
    "$(sed -n 's/^Maintainer: //p' "$debian/control")" "$(LC_ALL=C date -u -R -d "@$epoch")" | gzip -9n > "$doc/changelog.Debian.gz"
gzip -9nc "$root/CHANGELOG.md" > "$doc/changelog.gz"

mkdir "$made/DEBIAN"
mv "$made/conffiles" "$made/DEBIAN/"
(cd "$made" && find etc usr -type f -not -path 'etc/*' -print0 | LC_ALL=C sort -z | xargs -0 md5sum) > "$made/DEBIAN/md5sums"
architecture=$(dpkg --print-architecture)
sed "s/VERSION/$version/; s/ARCHITECTURE/$architecture/; s/SIZE/$(du -ks "$made" | cut -f1)/" "$debian/control" > "$made/DEBIAN/control"
install -m 755 "$debian/postinst" "$debian/prerm" "$debian/postrm" "$made/DEBIAN"
SOURCE_DATE_EPOCH=$epoch dpkg-deb --root-owner-group -Zxz --build "$made" "$folder/ringd_$version-1_$architecture.deb" > /dev/null
echo "$folder/ringd_$version-1_$architecture.deb"
