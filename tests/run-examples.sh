#!/bin/sh
# Runs every example of a folder through a program. Each has to print what its .out holds, say nothing on standard
# error, where a stop is told, and exit 0; its .in, if there is one, is the input.
#     run-examples.sh PROGRAM                  the manual's MINICODE: the second program, or the product's minicode
#     run-examples.sh PROGRAM FOLDER ENDING    FOLDER's files of this ending, as `examples b`: the second program for
#                                              BCPL sources, or the product's bcpl
if [ $# -ne 1 ] && [ $# -ne 3 ]; then
    echo "usage: run-examples.sh PROGRAM [FOLDER ENDING]" >&2
    exit 2
fi
program=$1
folder=${2:-$(dirname "$0")/examples}
ending=${3:-min}
said=$(mktemp -d) || exit 2
trap 'rm -r "$said"' EXIT
failed=0
count=0
for text in "$folder"/*."$ending"; do
    [ -f "$text" ] || continue
    name=${text%."$ending"}
    input=$name.in
    [ -f "$input" ] || input=/dev/null
    count=$((count + 1))
    "$program" "$text" < "$input" > "$said/out" 2> "$said/err"
    status=$?
    if [ "$status" -ne 0 ] || [ -s "$said/err" ] || ! cmp "$said/out" "$name.out"; then
        echo "differs: $text (exit status $status)"
        cat "$said/err"
        failed=$((failed + 1))
    fi
done
echo "$count examples, $failed differ"
[ "$count" -gt 0 ] && [ "$failed" -eq 0 ]
