# Takes the examples out of a document: for each, files in the directory `dir`, and a line on standard output:
#     NUMBER LINE KIND BUDGET VERDICT...
# where KIND is bcpl or minicode, BUDGET a number or -, and VERDICT what the example's comment says of it. The files are
# NUMBER.KIND, the program; NUMBER.input, its input; NUMBER.want, what it has to print; NUMBER.said, what a text block right
# after a refused or stopped program shows. How a document writes its examples stands in manual.sh. Whatever is not written
# so is told on standard error, with exit status 2.

function wrong(line, why) {
    print FILENAME ":" line ": " why > "/dev/stderr"
    bad = 1
}

# The block's lines: in a program the last has no newline unless the fence says "newline", elsewhere it has one unless
# the fence says "bare".
function keep(file,    i, j, times) {
    printf "" > file
    for (i = 1; i <= lines; i++) {
        times = (kept == "program" && i == repeated) ? repeats : 1
        for (j = 1; j <= times; j++) printf("%s%s", ((i > 1 || j > 1) ? "\n" : ""), block[i]) > file
    }
    if (lines > 0 && (kept == "program" ? note == "newline" : note != "bare")) printf "\n" > file
    close(file)
}

# All of an example is there: its line.
function tell() {
    print number, begun, kind, budget, verdict
    wanted = ""
}

function finish() {
    if (wanted != "") wrong(begun, "an example without its " wanted " block")
    wanted = ""
}

inside == "" && /^<!-- example: .* -->$/ {
    finish()
    verdict = substr($0, 15, length($0) - 18)
    begun = FNR
    budget = "-"
    repeated = 0
    if (match(verdict, /; line [0-9]+ is repeated [0-9]+ times$/)) {
        split(substr(verdict, RSTART), part, " ")
        repeated = part[3]
        repeats = part[6]
        verdict = substr(verdict, 1, RSTART - 1)
    }
    if (match(verdict, /^budget [0-9]+ /)) {
        budget = substr(verdict, 8, RLENGTH - 8)
        verdict = substr(verdict, RLENGTH + 1)
    }
    if (verdict !~ /^(refused [0-9]+ at [0-9]+ line [0-9]+|prints|prints and stops [0-9].*|stops [0-9].*|compiles to|lists)$/)
        wrong(FNR, "no verdict: " verdict)
    number = sprintf("%03d", ++count)
    wanted = "program"
    next
}

inside == "" && /^```/ {
    split(substr($0, 4), part, " ")
    inside = part[1] == "" ? "plain" : part[1]
    note = part[2]
    lines = 0
    kept = ""
    if (wanted == "program") {
        if (inside != "bcpl" && inside != "minicode") wrong(FNR, "an example begins with a bcpl or minicode block")
        kept = "program"
        kind = inside
    } else if (wanted != "" && inside == "input") {
        kept = "input"
    } else if (wanted != "" && inside == (verdict == "compiles to" ? "minicode" : "text")) {
        kept = "want"
    } else if (inside == "text" && FNR == closed + 1) {
        kept = "said"
    } else if (inside == "bcpl" || inside == "minicode") {
        wrong(FNR, "a " inside " block that is no example")
    }
    next
}

inside != "" && /^```$/ {
    if (kept == "program") {
        keep(dir "/" number "." kind)
        wanted = "text"
        if (verdict ~ /^(refused|stops) /) {
            closed = FNR
            tell()
        }
    } else if (kept == "input" || kept == "said") {
        keep(dir "/" number "." kept)
    } else if (kept == "want") {
        keep(dir "/" number ".want")
        tell()
    }
    inside = ""
    next
}

inside != "" {
    block[++lines] = $0
}

END {
    finish()
    if (inside != "") wrong(FNR, "a block that is not closed")
    if (bad) exit 2
}
