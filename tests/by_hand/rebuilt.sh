#!/usr/bin/env bash
# Builds a release anew, from its commit and from nothing, and compares its files byte for byte.
#
# Usage: rebuilt.sh RELEASE [REPOSITORY]      (the folder with PROVED and SHA256SUMS; the repository is this checkout unless one is given)
#        rebuilt.sh --built CLONE RELEASE [REPOSITORY]
#
# It checks the sums of RELEASE, clones the repository into a temporary folder, takes the commit that PROVED names, and proves and builds the
# programs there: some 80 minutes of processor time. The toolchain must be the one that PROVED names. Then it makes the release of them
# (install/release.sh), with the gate's line of PROVED, and compares each file. Debian's tools (dpkg-dev, binutils, tar, gzip, xz) have to be
# of the same versions. With --built nothing is proved: the programs are those that CLONE has built, as for a quick look at the packing.
# A line has the result of each check. The last line is 'N passed, M failed'.
set -u
built=
if [ "${1:-}" = --built ] && [ $# -ge 2 ]; then
    built=$2
    shift 2
fi
if [ $# -lt 1 ] || [ $# -gt 2 ] || [ ! -f "$1/PROVED" ]; then
    sed -n '/^# Usage/,/^#$/s/^# //p' "$0"
    exit 2
fi
release=$(realpath "$1")
repository=$(realpath "${2:-$(dirname "$0")/../..}")
programs=(mc_serverd mc_proxyd mc_sim)
work=$(mktemp -d)
trap 'rm -rf "$work"' EXIT
clone=$work/wiersbol
passed=0
failed=0
exec 4>&1 # where prove.py reports its progress

# The text of PROVED after a word.
proved() {
    sed -n "s/^$1: //p" "$release/PROVED"
}

# Makes a check, prints what it should see, and counts it.
check() {
    local what=$1
    shift
    if "$@" > "$work/said" 2>&1; then
        echo "$what"
        passed=$((passed + 1))
    else
        tail -n 20 "$work/said"
        echo "FAILED: $what"
        failed=$((failed + 1))
        return 1
    fi
}

end() {
    echo "$passed passed, $failed failed"
    [ "$failed" -eq 0 ]
    exit
}

sums_are_right() {
    (cd "$release" && sha256sum --check --strict SHA256SUMS)
}

is_this_toolchain() {
    local here
    here=$(rt version)
    [ "$here" = "$(proved Toolchain)" ] || { echo "rt version prints $here"; return 1; }
}

is_cloned() {
    git clone --quiet --no-checkout "$repository" "$clone" && git -C "$clone" checkout --quiet --detach "$(proved Commit)"
}

# Has the clone's programs: proved and built there, or those of another clone.
are_built() {
    local name
    if [ -z "$built" ]; then
        (cd "$clone" && ./prove.py "${programs[@]}" < /dev/null >&4 2>&4)
        return
    fi
    for name in "${programs[@]}"; do
        install -D -m 755 "$built/crates/$name/out/$name" "$clone/crates/$name/out/$name" || return 1
    done
}

# Makes the release. A release without a gate is made without one.
is_packed() {
    local line gate=
    line=$(proved 'Gate (make test)')
    if [ "$line" != 'no gate was seen' ]; then
        gate=$work/gate
        echo "$line" > "$gate"
    fi
    (cd "$clone" && install/release.sh "$gate" "${programs[@]}")
}

is_the_same() {
    cmp "$release/$1" "$clone/dist/$1"
}

check 'SHA256SUMS has the sums of the files' sums_are_right || end
check "the toolchain is $(proved Toolchain)" is_this_toolchain || [ -n "$built" ] || end
check "the clone is of commit $(proved Commit)" is_cloned || end
check "the programs are built${built:+, by $built}" are_built || end
check 'the release is made' is_packed || end
while read -r _ file; do
    check "$file is the same" is_the_same "$file"
done < "$release/SHA256SUMS"
check 'SHA256SUMS is the same' is_the_same SHA256SUMS
end
