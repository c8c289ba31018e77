#!/bin/sh
# Compares the texts of scripts/help, which the launcher prints while a program isn't built, with what the programs print themselves.
# usage: check-help.sh PROGRAM...    paths of built programs, whose file names are w16heap, w16ne or w16map; without one those that are built here
# It ends with 1 where something differs, and shows the difference.

top=$(dirname "$(readlink -f "$0")")/..
[ $# -gt 0 ] || for name in w16heap w16ne w16map; do
    [ ! -x "$top/crates/$name/out/$name" ] || set -- "$@" "$top/crates/$name/out/$name"
done
[ $# -gt 0 ] || { echo "check-help: no program is built, and none is named" >&2; exit 2; }
status=0
for program in "$@"; do
    name=$(basename "$program")
    "$program" --help | diff "$top/scripts/help/$name.txt" - || { status=1; echo "check-help: $name.txt isn't what $program --help prints"; }
    "$program" --version | diff "$top/scripts/help/$name-version.txt" - || { status=1; echo "check-help: $name-version.txt isn't what $program --version prints"; }
done
[ "$status" -ne 0 ] || echo "check-help: $# programs print what is kept"
exit "$status"
