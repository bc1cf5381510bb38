#!/usr/bin/env bash
# compare/instructions.sh [SOURCES] [ELEMENTS]: instructions of each row of `compare/run.sh SOURCES bench`, here and of the crate,
# counted by valgrind's callgrind in one call after another that is not counted. They are an element's, but for admission a
# call's. ELEMENTS is 1000000 where it is not given.
set -euo pipefail
here=$(cd "$(dirname "$0")" && pwd)
sources=${1:-${COLUMNAR_SRC:-}}
elements=${2:-1000000}
command -v valgrind > /dev/null || { echo "compare/instructions.sh: skipped, there is no valgrind"; exit 0; }
dir=$(mktemp -d)
trap 'rm -rf "$dir"' EXIT
COMPARE_PROGRAM=$dir/compare "$here/run.sh" "$sources" bench
[ -f "$dir/compare" ] || exit 0

# The instructions between entering and leaving the function that the program calls for this.
count() {
    valgrind --tool=callgrind --toggle-collect=compare_bench_measured --callgrind-out-file="$dir/counted" \
        "$dir/compare" bench "$@" "$elements" > "$dir/log" 2>&1 || { cat "$dir/log" >&2; exit 1; }
    sed -n 's/^\(summary\|totals\): //p' "$dir/counted" | head -n 1
}

echo "| column | elements | what | ours, instructions | the crate, instructions | ours / the crate |"
echo "|---|---:|---|---:|---:|---:|"
names=(- words bytes strides "bools over words" "bools over strides" empties)
for column in 1 2 3 4 5 6; do
    for what in admit convert encode write; do
        ours=$(count "$column" "$what" ours)
        crate=$(count "$column" "$what" crate)
        awk -v name="${names[$column]}" -v what="$what" -v ours="$ours" -v crate="$crate" -v elements="$elements" '
            function short(number,   digits) {
                digits = 2 - int(log(number) / log(10) + 1000) + 1000
                return sprintf("%." (digits > 0 ? digits : 0) "f", number)
            }
            BEGIN {
                parts = elements
                if (what == "admit") { what = "admit, a call"; parts = 1 }
                printf "| %s | %d | %s | %s | %s | %s |\n", name, elements, what,
                    short(ours / parts), short(crate / parts), short(ours / crate)
            }'
    done
done
