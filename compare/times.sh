#!/usr/bin/env bash
# compare/times.sh [SOURCES] [BUILDS]: the tables of `compare/run.sh SOURCES bench` of some builds (4 where it is not given) as one. Each
# build stands in a folder of another name, so that the linker places the same loops elsewhere, which changes their time. Of
# each row and side it prints the fastest, and then the smallest and the largest ratio of a build.
set -euo pipefail
here=$(cd "$(dirname "$0")" && pwd)
sources=${1:-${COLUMNAR_SRC:-}}
dir=$(mktemp -d)
trap 'rm -rf "$dir"' EXIT
for build in $(seq "${2:-4}"); do
    "$here/run.sh" "$sources" bench > "$dir/$build"
done
awk -F ' *[|] *' '
    function short(number,   digits) {
        digits = 2 - int(log(number) / log(10) + 1000) + 1000
        return sprintf("%." (digits > 0 ? digits : 0) "f", number)
    }
    NF != 8 { print; next }
    FNR <= 2 {
        if (FNR == NR) print $0 (FNR == 1 ? " ratios of the builds |" : "---:|")
        next
    }
    {
        row = "| " $2 " | " $3 " | " $4 " |"
        if (!(row in ours)) {
            rows[++count] = row
            ours[row] = $5; crate[row] = $6; least[row] = most[row] = $7
        }
        if ($5 + 0 < ours[row] + 0) ours[row] = $5
        if ($6 + 0 < crate[row] + 0) crate[row] = $6
        if ($7 + 0 < least[row] + 0) least[row] = $7
        if ($7 + 0 > most[row] + 0) most[row] = $7
    }
    END {
        for (i = 1; i <= count; i++) {
            row = rows[i]
            print row, ours[row], "|", crate[row], "|", short(ours[row] / crate[row]), "|", least[row] " to " most[row] " |"
        }
    }
' $(seq -f "$dir/%g" "${2:-4}")
