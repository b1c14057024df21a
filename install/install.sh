#!/usr/bin/env bash
# Puts built programs, their manual pages, the systemd units and the script that these call below a folder. The units name both below PREFIX,
# which is another folder than the first if the files are packed.
#
# Usage: install.sh FOLDER PREFIX PROGRAM..
set -eu
folder=$1
prefix=$2
shift 2
here=$(cd "$(dirname "$0")" && pwd)
for name in "$@"; do
    program=$here/../crates/$name/out/$name
    install -D -m 755 "$program" "$folder/bin/$name"
    mkdir -p "$folder/share/man/man1"
    "$here/manual.py" "$program" > "$folder/share/man/man1/$name.1"
done
install -D -m 755 "$here/serving.sh" "$folder/lib/wiersbol/serving.sh"
mkdir -p "$folder/lib/systemd/system"
for unit in "$here"/*.service; do
    sed "s|@PREFIX@|$prefix|g" "$unit" > "$folder/lib/systemd/system/$(basename "$unit")"
done
