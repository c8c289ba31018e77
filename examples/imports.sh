#!/bin/sh
# Prints what module files import, a line for each import: the file, the module, and the entry by its name or as # and its ordinal.
# A file that isn't accepted has none.
# usage: imports.sh PROGRAM FILE...    where PROGRAM is w16ne
program=$1
shift
if command -v jq > /dev/null; then
    "$program" --json "$@" | jq -r '.file as $file | .module.imports[]? | "\($file) \(.module) \(.name // "#\(.ordinal)")"'
else
    "$program" --json "$@" | python3 -c '
import json, sys
for line in sys.stdin:
    file = json.loads(line)
    for it in (file.get("module") or {}).get("imports", []):
        print(file["file"], it["module"], it.get("name") or "#%d" % it["ordinal"])'
fi
