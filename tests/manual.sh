#!/bin/sh
# Runs every example of a document through two programs.
#     manual.sh BCPL MINICODE DOCUMENT...
# An example is a comment on a line of its own, then a block of the program, which goes to BCPL (bcpl) or MINICODE (minicode):
#     <!-- example: refused 8 at 15 line 1 -->   prints just this line, and explains it on standard error
#     <!-- example: prints -->                   prints the text block that follows, and finishes: nothing on standard error
#     <!-- example: stops 33 ... -->             prints nothing; standard error tells "stopped 33 ..."
#     <!-- example: prints and stops 33 ... -->  both
#     <!-- example: compiles to -->              with -S, prints the minicode block that follows
#     <!-- example: lists -->                    with -l, prints the text block that follows, gaps of any width
# A text block right after a refused program shows that line again, and right after one that stops, all of standard error:
# both are compared. An input block before the text block is the program's input. `budget N` in front of the verdict is the
# program's BUDGET; `; line K is repeated N times` behind it is of the program block. A program has no newline after its
# last line, unless its fence says so (```bcpl newline); input and text have one, unless the fence says no (```text bare).
if [ $# -lt 3 ]; then
    echo "usage: manual.sh BCPL MINICODE DOCUMENT..." >&2
    exit 2
fi
LC_ALL=C
export LC_ALL
here=$(dirname "$0")
bcpl=$1
minicode=$2
shift 2
made=$(mktemp -d) || exit 2
trap 'rm -r "$made"' EXIT
total=0
failed=0

differs() {
    echo "differs: $document line $line ($verdict): $1"
    failed=$((failed + 1))
}

# Blanks in a row count as one, and none stand at a line's ends.
squeezed() {
    sed -e 's/[ 	][ 	]*/ /g' -e 's/^ //' -e 's/ $//' "$1"
}

check() {
    file=$made/$number.$kind
    input=$made/$number.input
    want=$made/$number.want
    said=$made/$number.said
    [ -f "$input" ] || input=/dev/null
    if [ "$kind" = bcpl ]; then program=$bcpl; else program=$minicode; fi
    case $verdict in
        "compiles to") set -- -S "$file" ;;
        lists) set -- -l "$file" ;;
        *) if [ "$budget" = - ]; then set -- "$file"; else set -- "$file" "$budget"; fi ;;
    esac
    "$program" "$@" < "$input" > "$made/out" 2> "$made/err"
    case $verdict in
        refused*) echo "$verdict" > "$want" ;;
        stops*) : > "$want" ;;
        lists)
            squeezed "$made/out" > "$made/squeezed" && mv "$made/squeezed" "$made/out"
            squeezed "$want" > "$made/squeezed" && mv "$made/squeezed" "$want"
            ;;
    esac
    if ! cmp -s "$made/out" "$want"; then
        differs "it prints"
        head -n 20 "$made/out"
        return
    fi
    case $verdict in
        refused*)
            if [ -f "$said" ] && ! cmp -s "$made/out" "$said"; then differs "the document shows another line"; fi
            if ! [ -s "$made/err" ]; then differs "it explains nothing"; fi
            return
            ;;
        *"stops "*)
            if ! grep -qF "stopped ${verdict#*stops }" "$made/err"; then
                differs "it says"
                cat "$made/err"
            elif [ -f "$said" ] && ! cmp -s "$made/err" "$said"; then
                differs "the document shows another line"
            fi
            return
            ;;
    esac
    if [ -s "$made/err" ]; then
        differs "it says"
        cat "$made/err"
    fi
}

for document in "$@"; do
    awk -v dir="$made" -f "$here/manual.awk" "$document" > "$made/list" || exit 2
    while read -r number line kind budget verdict; do
        total=$((total + 1))
        check
    done < "$made/list"
    rm -f "$made"/[0-9]*
done
echo "$total examples, $failed differ"
[ "$failed" -eq 0 ] && [ "$total" -gt 0 ]
