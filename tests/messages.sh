#!/bin/sh
# Holds what a program says to the files in messages/, on standard output and on standard error.
#     messages.sh PROGRAM
# A case is NAME.args, the words that the program is given in that directory; NAME.out and NAME.err are what it has to write.
# Exits 1 if a case differs, and shows how. The last five cases need more than a file of words.
program=$(readlink -f "$1") || exit 2
[ -x "$program" ] || { echo "usage: messages.sh PROGRAM" >&2; exit 2; }
cd "$(dirname "$0")/messages" || exit 2
said=$(mktemp -d) || exit 2
trap 'rm -r "$said"' EXIT
failed=0
count=0

# What was said in $said/out and $said/err, against the files of the case $1.
hold() {
    count=$((count + 1))
    if ! diff "$1.out" "$said/out" || ! diff "$1.err" "$said/err"; then
        echo "differs: $1"
        failed=$((failed + 1))
    fi
}

for case in *.args; do
    name=${case%.args}
    # The words of the file are to be split.
    # shellcheck disable=SC2046
    "$program" $(cat "$case") < /dev/null > "$said/out" 2> "$said/err"
    hold "$name"
done

# A program that is too long for the memory.
awk 'BEGIN { print "$"; for (i = 0; i < 32352; i++) print "D" i; print "X22"; print "Z" }' > "$said/text"
"$program" "$said/text" < /dev/null > "$said/out" 2> "$said/err"
hold too-long

# An input that is too long.
awk 'BEGIN { for (i = 0; i < 262145; i++) print "INP" }' | "$program" finishes.min > "$said/out" 2> "$said/err"
hold input-too-long

# Output that cannot be written.
if [ -c /dev/full ]; then
    : > "$said/out"
    "$program" writes.min < /dev/null > /dev/full 2> "$said/err"
    hold output-full
fi

# A further budget, asked for at a terminal (which `script` makes, of util-linux): what is no number, and then enough to finish.
if script -q -E never -c true /dev/null < /dev/null > /dev/null 2>&1; then
    : > "$said/err"
    printf '1\nsoon\n1\n1\n9\n' | script -q -E never -c "$program -c store-one.min 2 < /dev/null" /dev/null | tr -d '\r' > "$said/out"
    hold further
fi

# And with no terminal.
if setsid -w true 2> /dev/null; then
    setsid -w "$program" -c store-one.min 2 < /dev/null > "$said/out" 2> "$said/err"
    hold further-nowhere
fi

echo "$count messages, $failed differ"
[ "$failed" -eq 0 ]
