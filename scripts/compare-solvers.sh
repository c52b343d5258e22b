#!/bin/sh
# Runs `prove` on clause files and, where MiniSat is installed, MiniSat on the same files, and compares what they answer.
# Takes the example files where none is given. Ends with 1 where two answers differ.
top=$(cd "$(dirname "$0")/.." && pwd)
work=$(mktemp -d)
trap 'rm -rf "$work"' EXIT
differ=0
[ $# -gt 0 ] || set -- "$top"/examples/*.cnf
for file in "$@"; do
    "$top/angelix" prove "$file" "$work/proof" --budget 1000000 >"$work/report" 2>/dev/null
    case $? in
        0) ours=unsatisfiable ;;
        1) ours=satisfiable ;;
        *) ours="none ($(head -n 1 "$work/report"))" ;;
    esac
    theirs="not installed"
    if command -v minisat >/dev/null; then
        minisat "$file" >/dev/null 2>&1
        case $? in
            10) theirs=satisfiable ;;
            20) theirs=unsatisfiable ;;
            *) theirs=none ;;
        esac
    fi
    echo "$file: angelix $ours, minisat $theirs"
    case "$ours/$theirs" in
        satisfiable/unsatisfiable | unsatisfiable/satisfiable) differ=1 ;;
    esac
done
exit $differ
