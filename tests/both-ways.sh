#!/bin/sh
# Every BCPL example by its MINICODE text: what `bcpl -S` prints, run by minicode, has to print what the example is expected to.
#     both-ways.sh BCPL MINICODE FOLDER...
bcpl=$1
minicode=$2
shift 2
made=$(mktemp -d) || exit 2
trap 'rm -r "$made"' EXIT
failed=0
count=0
for folder in "$@"; do
    for source in "$folder"/*.b; do
        name=${source%.b}
        input=$name.in
        [ -f "$input" ] || input=/dev/null
        count=$((count + 1))
        if ! "$bcpl" -S "$source" > "$made/text.min" || ! "$minicode" "$made/text.min" < "$input" > "$made/out" \
            || ! cmp "$made/out" "$name.out"; then
            echo "differs: $source"
            failed=$((failed + 1))
        fi
    done
done
echo "$count examples by their texts, $failed differ"
[ "$count" -gt 0 ] && [ "$failed" -eq 0 ]
