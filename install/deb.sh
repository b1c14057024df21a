#!/usr/bin/env bash
# Makes a Debian package of built programs, with their manual pages, units and settings, and prints its path.
#
# Usage: deb.sh [PROGRAM..]      (mc_serverd mc_proxyd mc_sim)
#
# The package is dist/wiersbol_VERSION_amd64.deb. The version is that of crates/mc_program/src/version.rt, which the programs print. The
# first entry of CHANGELOG.md must have it too, and the name of the package in README.md and docs/RUNNING.md. LICENSE has the licence, whose
# SPDX line README.md must have too. All times in the package are that of the last commit, or SOURCE_DATE_EPOCH, so the same programs give
# the same bytes. It needs Debian's dpkg-dev and binutils.
set -eu
cd "$(dirname "$0")/.."
[ $# -gt 0 ] || set -- mc_serverd mc_proxyd mc_sim
export LC_ALL=C TZ=UTC SOURCE_DATE_EPOCH="${SOURCE_DATE_EPOCH:-$(git log -1 --format=%ct)}"
umask 022
version=$(sed -n 's/^pub const VERSION: &str = "\([0-9.]*\) .*/\1/p' crates/mc_program/src/version.rt)
package=wiersbol_${version}_amd64.deb
maintainer=$(sed -n 's/^Maintainer: //p' install/debian/control)
work=$(mktemp -d)
trap 'rm -rf "$work"' EXIT
root=$work/root
documents=$root/usr/share/doc/wiersbol

refuse() {
    echo "deb.sh: $*" >&2
    exit 1
}

# CHANGELOG.md as a Debian changelog. An entry begins with `## VERSION (YEAR-MONTH-DAY)`, and has a line for each change; further lines of a
# change begin with two spaces.
changelog() {
    local line day='' number
    while IFS= read -r line; do
        case $line in
        '## '*)
            [ -z "$day" ] || sign "$day"
            read -r _ number day <<< "$line"
            printf 'wiersbol (%s) unstable; urgency=medium\n\n' "$number"
            ;;
        '- '*) fmt -w 74 <<< "${line#- }" | sed '1s/^/  * /; 1!s/^/    /' ;;
        esac
    done < <(sed ':all; N; $!b all; s/\n  / /g' CHANGELOG.md)
    sign "$day"
}

sign() {
    printf '\n -- %s  %s\n\n' "$maintainer" "$(date -R -d "$(tr -d '()' <<< "$1")")"
}

# The licence as Debian's machine-readable copyright file, format 1.0.
copyright() {
    local licence
    licence=$(sed -n 's/^SPDX-License-Identifier: //p' LICENSE)
    echo 'Format: https://www.debian.org/doc/packaging-manuals/copyright-format/1.0/'
    echo 'Upstream-Name: Wiersbol'
    cat install/debian/libraries
    printf '\nFiles: *\nCopyright: %s\nLicense: %s\n' "$(sed -n 's/^Copyright //p' LICENSE)" "$licence"
    sed '1,/^Copyright /d' LICENSE | sed '1{/^$/d}; s/^$/./; s/^/ /'
    if [ -f "/usr/share/common-licenses/$licence" ]; then
        printf ' .\n On Debian systems the text of the License is in\n /usr/share/common-licenses/%s.\n' "$licence"
    fi
}

command -v dpkg-shlibdeps > /dev/null || refuse 'dpkg-dev is missing: apt install dpkg-dev'
for name in "$@"; do
    [ -x "crates/$name/out/$name" ] || refuse "$name is not built: ./prove.py $name"
done
grep -qxF "$(grep '^SPDX-License-Identifier: ' LICENSE)" README.md || refuse 'README.md names another licence than LICENSE'
for page in README.md docs/RUNNING.md; do
    grep -qF "$package" "$page" || refuse "$page does not name $package"
done
changelog > "$work/changelog"
[ "$(sed -n '1s/.*(\(.*\)).*/\1/p' "$work/changelog")" = "$version" ] || refuse "CHANGELOG.md does not begin with $version"

install/install.sh "$root/usr" /usr "$@"
strip --strip-unneeded --remove-section=.comment --remove-section=.note "$root"/usr/bin/*
for settings in install/default/*; do
    install -D -m 644 "$settings" "$root/etc/default/${settings##*/}"
done
mkdir -p "$documents"
copyright > "$documents/copyright"
cp "$work/changelog" "$documents/changelog"
install -m 644 README.md docs/RUNNING.md docs/PROTOCOL.md docs/GUARANTEES.md docs/SCRIPTS.md "$documents"
find "$root/usr/share/man" "$documents" -type f ! -name copyright -exec gzip -9n {} +
install -m 644 install/dashboard.json install/alerts.yml "$documents"

# The files that belong to Debian's tools: dependencies, control, settings, sums, and the scripts of installation and removal.
mkdir -p "$work/debian" "$root/DEBIAN"
cp install/debian/control "$work/debian/control"
(
    cd "$work"
    dpkg-shlibdeps -Tsubstvars root/usr/bin/*
    dpkg-gencontrol -pwiersbol -lchangelog -Tsubstvars -Proot -ffiles > /dev/null
)
(cd "$root" && find etc -type f | sort | sed 's|^|/|') > "$root/DEBIAN/conffiles"
(cd "$root" && find usr -type f | sort | xargs md5sum) > "$root/DEBIAN/md5sums"
install -m 755 install/debian/postinst install/debian/prerm install/debian/postrm "$root/DEBIAN"
find "$root" -exec touch -h -d "@$SOURCE_DATE_EPOCH" {} +

mkdir -p dist
dpkg-deb --root-owner-group -Zxz --threads-max=1 --build "$root" "$work/$package" > /dev/null
mv "$work/$package" "dist/$package"
echo "dist/$package"
