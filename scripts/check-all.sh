#!/bin/sh
# Runs every check of pages, definitions and examples: those of help texts and examples where the programs are built, the others always.
# usage: check-all.sh
# It ends with 1 where one of them finds something.

cd "$(dirname "$(readlink -f "$0")")" || exit 1
heap=../crates/w16heap/out/w16heap
ne=../crates/w16ne/out/w16ne
map=../crates/w16map/out/w16map
status=0
./check-docs.py || status=1
./check-commands.py || status=1
./meaning.py || status=1
if [ -x "$heap" ] && [ -x "$ne" ] && [ -x "$map" ]; then
    ./check-help.sh "$heap" "$ne" "$map" || status=1
    ./check-examples.sh "$heap" "$ne" "$map" || status=1
else
    echo "check-all: w16heap, w16ne and w16map aren't all built, so help texts and examples aren't compared"
fi
exit "$status"
