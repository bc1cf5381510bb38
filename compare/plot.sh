#!/usr/bin/env bash
# compare/plot.sh: draws docs/benchmarks.svg from the first table of docs/BENCHMARKS.md, its rows of 1,000,000 elements.
set -euo pipefail
docs=$(cd "$(dirname "$0")/../docs" && pwd)
awk -F ' *[|] *' '
    function place(ratio) { return left + wide * (log(ratio) / log(10) - low) / (high - low) }
    BEGIN { left = 210; wide = 560; low = -1; high = 5; step = 20; top = 66 }
    NF == 9 && $3 == "1000000" && ++seen[$2 $4] == 1 && !done {
        split($4, what, ",")
        name[++rows] = $2 ", " what[1]
        ratio[rows] = $7
        split($8, ends, " to ")
        least[rows] = ends[1]
        most[rows] = ends[2]
    }
    rows && !/^[|]/ { done = 1 }
    END {
        bottom = top + step * rows
        printf "<svg xmlns=\"http://www.w3.org/2000/svg\" width=\"860\" height=\"%d\" ", bottom + 34
        print "font-family=\"sans-serif\" font-size=\"12\">"
        print "<rect width=\"100%\" height=\"100%\" fill=\"white\"/>"
        print "<text x=\"10\" y=\"20\" font-size=\"14\">Time here divided by the time of the crate, 1,000,000 elements</text>"
        print "<text x=\"10\" y=\"38\">Left of 1: faster here. Right of 1: slower here. Black: from the smallest to the largest ratio of a build.</text>"
        for (power = low; power <= high; power++) {
            x = place(10 ^ power)
            printf "<line x1=\"%.1f\" y1=\"%d\" x2=\"%.1f\" y2=\"%d\" ", x, top - 6, x, bottom
            printf "stroke=\"%s\"/>\n", power == 0 ? "black" : "#cccccc"
            printf "<text x=\"%.1f\" y=\"%d\" text-anchor=\"middle\">%s</text>\n", x, bottom + 18, 10 ^ power
        }
        for (row = 1; row <= rows; row++) {
            y = top + step * (row - 1)
            from = place(1)
            to = place(ratio[row])
            slower = to > from
            printf "<text x=\"%d\" y=\"%d\" text-anchor=\"end\">%s</text>\n", left - 36, y + 11, name[row]
            printf "<rect x=\"%.1f\" y=\"%d\" width=\"%.1f\" ", slower ? from : to, y, slower ? to - from : from - to
            printf "height=\"14\" fill=\"%s\"/>\n", slower ? "#c05020" : "#2070a0"
            printf "<line x1=\"%.1f\" y1=\"%d\" x2=\"%.1f\" y2=\"%d\" stroke=\"black\"/>\n", place(least[row]), y + 7, place(most[row]), y + 7
            beyond = slower ? most[row] : least[row]
            printf "<text x=\"%.1f\" y=\"%d\" ", slower ? place(beyond) + 4 : place(beyond) - 4, y + 11
            printf "text-anchor=\"%s\">%s</text>\n", slower ? "start" : "end", ratio[row]
        }
        print "</svg>"
    }
' "$docs/BENCHMARKS.md" > "$docs/benchmarks.svg"
