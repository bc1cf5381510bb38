#!/usr/bin/env bash
# Builds the program `convert` and runs it on images of each kind, good and bad, and on one of 64 MiB, which has to be through in
# a minute.
set -euo pipefail
cd "$(dirname "$0")/../crates/convert"
dir=$(mktemp -d)
trap 'rm -rf "$dir"' EXIT

# image WORD..: the words as bytes, the lowest first
image() {
    local word
    for word in "$@"; do
        # shellcheck disable=SC2059
        printf "$(printf '%016x' "$word" | sed 's/\(..\)\(..\)\(..\)\(..\)\(..\)\(..\)\(..\)\(..\)/\\x\8\\x\7\\x\6\\x\5\\x\4\\x\3\\x\2\\x\1/')"
    done
}

image 16 24 7 > "$dir/seven"
rt run -- 3 < "$dir/seven" > "$dir/first" 2> /dev/null || { echo "tests/convert.sh: convert was not built"; exit 1; }

# expect NAME STATUS ARGUMENTS.. < image: what is printed has to be what stands in $dir/wanted
expect() {
    local name=$1 status=$2 got=0
    shift 2
    timeout 60 ./out/convert "$@" > "$dir/got" 2> "$dir/errors" || got=$?
    if [ "$got" != "$status" ] || ! cmp -s "$dir/got" "$dir/wanted"; then
        echo "tests/convert.sh: $name: status $got, wanted $status"
        diff "$dir/got" "$dir/wanted" | head -5 || true
        exit 1
    fi
    echo "$name: ok"
}

printf '%s\n' 'admitted 7' 'image 3' 10 18 7 > "$dir/wanted"
expect 'a spare count' 0 3 < "$dir/seven"
image 16 32 7 8 9 > "$dir/more"
expect 'a spare count and more words' 0 3 < "$dir/more"
printf '%s\n' 'admitted 4294967295' 'image 3' 10 18 ffffffff > "$dir/wanted"
image 16 24 4294967295 > "$dir/most"
expect 'the longest spare count' 0 3 < "$dir/most"
printf '%s\n' 'admitted 3' 'image 12' 30 40 48 48 58 5b 40 2 be 2 3 50303 > "$dir/wanted"
image 48 64 72 72 88 91 64 2 190 2 3 0xff050303 > "$dir/blocks"
expect 'three blocks with dirty padding' 0 1 < "$dir/blocks"
printf '%s\n' 'admitted 3' 'image 12' > "$dir/wanted"
expect 'three blocks into a file' 0 1 --out "$dir/out" < "$dir/blocks"
image 48 64 72 72 88 91 64 2 190 2 3 0x050303 | cmp - "$dir/out"
printf '%s\n' 'refused 9 2' > "$dir/wanted"
image 48 64 72 72 88 91 64 2 190 2 64 0x050303 > "$dir/tail"
expect 'a tail count of 64' 1 1 < "$dir/tail"
printf '%s\n' 'refused 17 0' > "$dir/wanted"
expect 'no kind 4' 1 4 < "$dir/seven"
printf '%s\n' 'refused 1 0' > "$dir/wanted"
head -c 23 "$dir/seven" > "$dir/cut"
expect '23 bytes' 1 3 < "$dir/cut"
printf '%s\n' 'refused 2 0' > "$dir/wanted"
expect 'nothing' 1 3 < /dev/null
: > "$dir/wanted"
expect 'no arguments' 2 < /dev/null
expect 'a flag that is none' 2 3 --in x < /dev/null

# 8,388,592 words of 64 marks each, all false, as bounds
{ image 32 48 67108784 67108800 0 0; head -c 67108736 /dev/zero; image 0 0; } > "$dir/large"
printf '%s\n' 'admitted 536869888' 'image 8' 20 30 30 40 0 7ffff0 0 0 > "$dir/wanted"
expect '64 MiB of marks' 0 2 < "$dir/large"
