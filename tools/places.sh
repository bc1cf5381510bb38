#!/usr/bin/env bash
# Counts the places in src/ where a newer form of the language may be plainer, at a commit or (with no argument) in the
# files as they stand. docs/DESIGN-PASS.md has the counts. With -l the places are listed.
#   tools/places.sh [-l] [COMMIT]
set -euo pipefail
cd "$(dirname "$0")/.."
list=
if [ "${1:-}" = -l ]; then
    list=yes
    shift
fi
commit=${1:-}

# found NAME PATTERN [FILES]: the lines of src/ that fit, but for comments
found() {
    local lines
    lines=$(git grep -nE "$2" $commit -- "${3:-crates/*/src/*.rt}" | sed "s/^${commit:-::}://" | grep -vE '^[^:]*:[0-9]*: *//' || true)
    printf '%5d  %s\n' "$(printf '%s' "$lines" | grep -c . || true)" "$1"
    if [ -n "$list" ] && [ -n "$lines" ]; then
        printf '%s\n' "$lines" | sed 's/^/           /'
    fi
}

found '1a  an arm that only passes on what is absent or refused, or a default for it' '(None|Err\([a-z_]+\)) => (return )?(None|Err\(|false|0,|self\.)'
found '1b  a test whether an answer is one, in place of its value' '\.is_(err|ok|none|some)\(\)|if let (Err|Ok|None)\('
found '1c  a number for a kind or a refusal' '\b(kind|number) == [0-9]|Refused\(u32|kind: u32|number: u32|=> [0-9]+,'
found '3a  a loop over a range of numbers' 'for [a-z_]+ in [^{]*\.\.'
found '3b  a loop with its own counter' '\bwhile\b|\bloop\b'
found '4   a conversion, comparison or printing by hand' 'fn (number|numbered|same_bytes|refused|told[a-z_]*|show[a-z_]*|as_bytes|between_others)\b|impl.* (Clone|PartialEq|From<|TryFrom<|fmt::Display)'
found '5a  a clause that begins with what holds of a value at all times' '(requires|ensures).*\{ *([A-Za-z]+\.)*[A-Za-z]*([sS]ound|Stands|There|Brought)\b'
found '5b  a clause that only says that this goes on' 'ensures keeps '
found '5c  a function that does nothing, for its clause' 'fn (lawful|upholds|read_back|examples_hold)\b'
found '5d  a clause that passes the members of a sink one by one' 'WriteBytes\.taken W\.WriteBytes\.room'
found '5e  a clause that passes the members of a read form one by one' '(FromBytes|ReadForm)\.slices [A-Za-z.]*\.kept'
found '6a  a buffer with a length or a place beside it, in a struct' '^ +(pub(\(crate\))? )?(at|len|part|count|limit|size|from): usize,'
found '6b  a parameter of that kind' '[(,] *(at|len|words|bytes|place|count|piece): (&mut )?usize|^        (at|len|words|bytes|place|count|piece): (&mut )?usize'
found '7   a choice of what to do by an enum or a number' 'match (self|event|item|kind|card|i) \{|if kind == '
echo '       8   lines of proof, and files of answers, by crate'
for crate in $(sed -n 's/^\([a-z_]*\).*:.*/\1/p' crates.txt); do
    files=$(if [ -n "$commit" ]; then git ls-tree -r --name-only "$commit" "crates/$crate/proofs"; else git ls-files "crates/$crate/proofs"; fi)
    lines=0
    answers=0
    for file in $files; do
        lines=$((lines + $(git show "$commit:$file" 2>/dev/null | wc -l)))
        case $file in */Answers.antt) answers=$((answers + 1)) ;; esac
    done
    printf '%5d  %-10s %d files of answers\n' "$lines" "$crate" "$answers"
done
