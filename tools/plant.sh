#!/usr/bin/env bash
# Plants each bug of tools/planted.tsv by itself in a copy of the repository, and says whether its crate is still proved.
#   tools/plant.sh [CRATE..]     all crates, or these
# A line of the list is CRATE, FILE, OLD, NEW and what is wrong, with tabs between; OLD stands once in FILE. The bugs are tried as
# must-fail edits are, over what `rt check` proves of the crates as they stand. Each prints `refused`, `only names` (a proof file
# no longer fits, which says little of the contract), `PROVED` or `bad`; the last line counts them.
set -euo pipefail
cd "$(dirname "$0")/.."
copy=$(mktemp -d)
trap 'rm -rf "$copy"' EXIT
git clone -q . "$copy/tree"
list=$PWD/tools/planted.tsv
cd "$copy/tree"
rm -f crates/*/must-fail/*.edit
crates=${*:-$(cut -f 1 "$list" | sort -u)}
n=0
while IFS=$'\t' read -r crate file old new what; do
    n=$((n + 1))
    case " $(echo $crates) " in *" $crate "*) ;; *) continue ;; esac
    mkdir -p "crates/$crate/must-fail"
    printf 'file: %s\nold: %s\nnew: %s\n' "$file" "$old" "$new" > "crates/$crate/must-fail/planted-$n.edit"
done < "$list"
log=$copy/log
for crate in $crates; do
    (cd "crates/$crate" && rt check > /dev/null 2>&1) || true
done
rt must-fail $crates > "$log" 2>&1 || true
refused=0 names=0 proved=0 bad=0 n=0
while IFS=$'\t' read -r crate file old new what; do
    n=$((n + 1))
    [ -e "crates/$crate/must-fail/planted-$n.edit" ] || continue
    line=$(grep -m 1 "planted-$n\.edit" "$log" || true)
    case $line in
        *'only because a proof file names'*) verdict='only names'; names=$((names + 1)) ;;
        *': refused, as it must be'*) verdict=refused; refused=$((refused + 1)) ;;
        *'NOT REFUSED'*) verdict=PROVED; proved=$((proved + 1)) ;;
        *) verdict=bad; bad=$((bad + 1)) ;;
    esac
    printf '%-10s %s %s: %s\n' "$verdict" "$crate" "$n" "$what"
done < "$list"
echo "planted: $refused refused, $names only by names, $proved proved, $bad bad"
