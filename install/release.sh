#!/usr/bin/env bash
# Makes a release of built programs in dist/: the Debian package, an archive of programs, manual pages and units, PROVED and SHA256SUMS.
#
# Usage: release.sh [GATE [PROGRAM..]]      (no gate; mc_serverd mc_proxyd mc_sim)
#        release.sh --unchanged
#
# GATE is a file with the output of `make test` on this commit. PROVED has the commit, the output of `rt version`, the gate's last line, and
# the sums of the programs as they were built. A tree with uncommitted changes is refused, and a gate that failed. --unchanged only looks at
# the tree.
# The archive unpacks into /usr/local: tar -xzf ARCHIVE -C /usr/local --strip-components=1. The same programs give the same bytes.
set -eu
gate=${1:-}
shift $(($# > 0))
[ -z "$gate" ] || [ "$gate" = --unchanged ] || gate=$(realpath "$gate")
cd "$(dirname "$0")/.."
[ $# -gt 0 ] || set -- mc_serverd mc_proxyd mc_sim
umask 022
export LC_ALL=C TZ=UTC

refuse() {
    echo "release.sh: $*" >&2
    exit 1
}

[ -z "$(git status --porcelain)" ] || refuse 'the tree has uncommitted changes (git status)'
[ "$gate" != --unchanged ] || exit 0
line='no gate was seen'
if [ -n "$gate" ]; then
    line=$(tail -n 1 "$gate")
    [[ $line =~ ^[0-9]+\ passed,\ [0-9]+\ failed$ ]] || refuse "$gate does not end with 'N passed, M failed'"
    [[ $line = *' 0 failed' ]] || refuse "the gate failed: $line"
fi
toolchain=$(rt version)

version=$(sed -n 's/^pub const VERSION: &str = "\([0-9.]*\) .*/\1/p' crates/mc_program/src/version.rt)
SOURCE_DATE_EPOCH=$(git log -1 --format=%ct)
export SOURCE_DATE_EPOCH
work=$(mktemp -d)
trap 'rm -rf "$work"' EXIT
name=wiersbol-$version-linux-amd64
rm -rf dist
package=$(install/deb.sh "$@")

install/install.sh "$work/$name" /usr/local "$@"
strip --strip-unneeded --remove-section=.comment --remove-section=.note "$work/$name"/bin/*
documents=./usr/share/doc/wiersbol
mkdir -p "$work/$name/share/doc/wiersbol"
dpkg-deb --fsys-tarfile "$package" | tar -xO "$documents/copyright" > "$work/$name/share/doc/wiersbol/copyright"
# No folder is an entry of its own: to unpack one would change the mode of that of /usr/local.
(cd "$work" && find "$name" -type f | sort) \
    | tar -C "$work" -T - --format=gnu --owner=root:0 --group=root:0 --mtime="@$SOURCE_DATE_EPOCH" -cf - | gzip -9n > "dist/$name.tar.gz"

{
    echo "Wiersbol $version"
    echo "Commit: $(git rev-parse HEAD)"
    echo "Toolchain: $toolchain"
    echo "Gate (make test): $line"
    echo 'SHA-256 of the programs as they were built, before they were stripped:'
    for each in "$@"; do
        (cd "crates/$each/out" && sha256sum "$each")
    done
} > dist/PROVED
(cd dist && sha256sum PROVED wiersbol* > SHA256SUMS)
printf 'dist/%s\n' PROVED SHA256SUMS "$name.tar.gz" "${package##*/}"
