#!/bin/sh
# Runs each example and compares what it prints with the file that is kept beside it, and so each run that README.md shows.
# usage: check-examples.sh W16HEAP [W16NE [W16MAP]]    paths of the built programs; those that aren't named have their examples left out
# It ends with 1 where something differs, and shows the difference.

[ $# -ge 1 ] || { sed -n '2,4s/^# //p' "$0" >&2; exit 2; }
heap=$(realpath "$1") && [ -x "$heap" ] || { echo "check-examples: can't run $1" >&2; exit 2; }
ne=
[ $# -lt 2 ] || { ne=$(realpath "$2") && [ -x "$ne" ]; } || { echo "check-examples: can't run $2" >&2; exit 2; }
map=
[ $# -lt 3 ] || { map=$(realpath "$3") && [ -x "$map" ]; } || { echo "check-examples: can't run $3" >&2; exit 2; }
cd "$(dirname "$0")/../examples" || exit 2
room=$(mktemp -d) || exit 2
trap 'rm -rf "$room"' EXIT
passed=0
failed=0

# Compares what a command prints with a file, and its status with a number.
compare() {
    out=$1
    wanted=$2
    shift 2
    "$@" > "$room/printed" 2> "$room/said"
    status=$?
    if [ "$status" -eq "$wanted" ] && [ ! -s "$room/said" ] && diff "$out" "$room/printed"; then
        passed=$((passed + 1))
    else
        failed=$((failed + 1))
        echo "check-examples: $out isn't what is printed (status $status): $*"
        cat "$room/said"
    fi
}

# Compares what a command prints with the file NAME.out.
check() {
    name=$1
    shift
    compare "$name.out" 0 "$@"
}

# The run of README.md whose command begins with a dollar sign.
check_readme() {
    ln -s "$heap" "$room/w16heap"
    sed -n 's/^    \$ //p' ../README.md > "$room/readme.sh"
    sed -n '/^    \$ /,/^$/p' ../README.md | sed '1d; /^$/d; s/^    //' > "$room/readme.out"
    [ -s "$room/readme.sh" ] || echo "check-examples: README.md shows no run"
    compare "$room/readme.out" 0 sh -c "cd '$room' && . ./readme.sh"
}

# The fault that README.md says of a file whose segments end too early.
check_fault() {
    mkdir "$room/cut"
    head -c 180 "$room/modules/TAPP.EXE" > "$room/cut/TAPP.EXE"
    grep -o 'TAPP.EXE: not accepted: [a-z: ]*' ../README.md > "$room/fault.out"
    compare "$room/fault.out" 4 "$ne" "$room/cut/TAPP.EXE"
}

./make-modules.py "$room/modules" || exit 2

check_readme
check compaction "$heap" --memory 512 compaction.txt
check tour "$heap" tour.txt
check local "$heap" local.txt
check growth "$heap" --memory 256 growth.txt
check selectors "$heap" --memory 262144 selectors.txt
check modules "$heap" --memory 4096 --dir "$room/modules" modules.txt
check stub "$heap" --dir "$room/modules" stub.txt
check refused "$heap" --memory 128 --dir "$room/modules" refused.txt
check dialogue ./dialogue.py "$heap"
if [ -n "$ne" ]; then
    check tapp "$ne" "$room/modules/TAPP.EXE"
    check_fault
    check imports ./imports.sh "$ne" "$room/modules/TAPP.EXE" "$room/modules/TLIB.DLL" "$room/cut/TAPP.EXE"
fi
if [ -n "$map" ]; then
    compare compaction.svg 0 "$map" --memory 512 compaction.txt
    check strips "$map" --text --memory 512 --selectors 4 compaction.txt
    compare modules.svg 0 "$map" --memory 512 --dir "$room/modules" modules.txt
fi

echo "check-examples: $passed passed, $failed failed"
[ "$failed" -eq 0 ]
