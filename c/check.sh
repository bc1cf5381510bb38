#!/usr/bin/env bash
# Builds the static library of the image check and the boot step, and a C program that links it, and runs the program.
set -euo pipefail
cd "$(dirname "$0")/.."
if ! command -v gcc > /dev/null; then
    echo "c/check.sh: skipped, there is no gcc"
    exit 0
fi
(cd crates/kinds_c && rt lib > /dev/null)
out=$(mktemp -d)
trap 'rm -rf "$out"' EXIT
cp crates/kinds_c/out/libkinds_c.a "$out/libkinds.a"
gcc -std=c11 -Wall -Wextra -Werror -O2 -I c c/boot.c "$out/libkinds.a" -o "$out/boot"
"$out/boot"
echo "c/check.sh: every answer is the one wanted"
