#!/bin/sh
# Packs the proved program: see --help.
usage="tools/pack.sh [FOLDER]

Packs the programs that ./groute and ./grbound run as tools/install.sh installs them, with licence, documents, man pages,
completion, examples, tools, and PROVED_WITH (what they were proved and built with), as
FOLDER/groute-VERSION-linux-x86_64.tar.xz and FOLDER/groute_VERSION-1_amd64.deb. FOLDER is dist where none is given. It
wants git, xz, gzip, python3 and dpkg-deb."

here=$(cd "$(dirname "$0")/.." && pwd) || exit 1
case ${1-} in
-*)
    echo "$usage"
    exit 0
    ;;
esac
mkdir -p "${1:-$here/dist}" && folder=$(cd "${1:-$here/dist}" && pwd) || exit 1
cd "$here" || exit 1
work=$(mktemp -d) || exit 1
trap 'rm -rf "$work"' EXIT
set -e

version=$(cat VERSION)
maintainer=$(git log -1 --format='%an <%ae>')
SOURCE_DATE_EPOCH=$(git log -1 --format=%ct)
export SOURCE_DATE_EPOCH
umask 022

name=groute-$version-linux-x86_64
tools/install.sh "$work/$name"
tar -C "$work" --sort=name --owner=0 --group=0 --numeric-owner --mtime="@$SOURCE_DATE_EPOCH" -c "$name" |
    xz -9e >"$folder/$name.tar.xz"

root=$work/root
doc=$root/usr/share/doc/groute
tools/install.sh "$root/usr"
mkdir -p "$root/DEBIAN" "$root/usr/share/lintian/overrides" "$root/usr/lib/python3/dist-packages"
ln -s ../../../share/groute/groute "$root/usr/lib/python3/dist-packages/groute"     # for `import groute`
install -m 644 packaging/lintian-overrides "$root/usr/share/lintian/overrides/groute"
mv "$doc/CHANGELOG.md" "$doc/changelog"
gzip -9n "$doc/changelog"
gzip -9nc >"$doc/changelog.Debian.gz" <<END
groute ($version-1) unstable; urgency=medium

  * Packed from $(git describe --always --dirty); changelog.gz says more.

 -- $maintainer  $(date -R -u -d "@$SOURCE_DATE_EPOCH")
END

# The newest symbol of the C library that the program names.
program=$root/usr/lib/groute/groute
needs="libc6 (>= $(grep -ao 'GLIBC_[0-9][0-9.]*' "$program" | sed 's/GLIBC_//' | sort -V | tail -n 1))"
! ldd "$program" | grep -q libgcc_s || needs="$needs, libgcc-s1"
cat >"$root/DEBIAN/control" <<END
Package: groute
Version: $version-1
Architecture: amd64
Section: electronics
Priority: optional
Maintainer: $maintainer
Installed-Size: $(du -sk "$root/usr" | cut -f 1)
Depends: $needs, python3
Recommends: python3-matplotlib, python3-numpy
Suggests: opensta
Description: proved global router for chip designs
 Routes designs in the form of the ISPD 2008 global routing contest by
 negotiated congestion, judges routes, and places buffers on them. Each of
 its answers is proved. Tools that read placed designs in LEF and DEF, write
 route guides and show congestion are beside it as groute-flow and so on.
END
(cd "$root" && find usr -type f -print0 | sort -z | xargs -0 md5sum) >"$root/DEBIAN/md5sums"
dpkg-deb --root-owner-group -Zxz --build "$root" "$folder/groute_$version-1_amd64.deb" >/dev/null
ls -l "$folder/$name.tar.xz" "$folder/groute_$version-1_amd64.deb"
