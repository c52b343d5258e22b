#!/bin/sh
# Runs `prove` on clause files and prints what it answers, with counts that are the same at each run: variables, clauses, and the
# lines of the proof, one for each conflict of the search. Takes the files of make-clause-files.sh where none is given.
top=$(cd "$(dirname "$0")/.." && pwd)
work=$(mktemp -d)
trap 'rm -rf "$work"' EXIT
if [ $# -eq 0 ]; then
    "$top/scripts/make-clause-files.sh" "$work/files"
    set -- "$work"/files/*.cnf
fi
for file in "$@"; do
    rm -f "$work/proof"
    "$top/angelix" prove "$file" "$work/proof" --budget 1000000 >"$work/report" 2>/dev/null
    answer=$(head -n 1 "$work/report")
    lines=-
    [ -f "$work/proof" ] && lines=$(wc -l <"$work/proof" | tr -d ' ')
    head=$(grep '^p cnf' "$file" | head -n 1 | cut -d ' ' -f 3,4)
    echo "$(basename "$file"): variables and clauses $head, lines $lines, ${answer:-no answer}"
done
