#!/usr/bin/env bash
# Times the layout test on full memory of an older commit's engine and of this one's, in turn, and prints the ratio of the best times.
# The older engine is proved and built in a clone of its own, which takes minutes. The gate does not run this.
# Usage: rust/bench/before.sh COMMIT
set -eu
cd "$(dirname "$0")/../.."
command -v rt >/dev/null 2>&1 || PATH="/opt/rattle/bin:$PATH"
[ $# -eq 1 ] || { echo "usage: rust/bench/before.sh COMMIT"; exit 2; }
older=$(mktemp -d)
trap 'rm -rf "$older"' EXIT

# Builds the static library of the engine in a folder, if it is not there, and the program that times it. A commit of an older kit's
# spelling is built by that kit alone.
build() {
    [ -f "$1/target/staticlib/libsulyobak.a" ] || (cd "$1" && rust/build-archives >/dev/null 2>&1)
    cc -std=c99 -O2 -Wall -Wextra -pedantic -I"$1/include" rust/bench/before.c -L"$1/target/staticlib" -lsulyobak -o "$2"
}

git clone --quiet --no-checkout . "$older"
git -C "$older" checkout --quiet "$1"
build "$older" "$older/before"
build "$PWD" "$older/now"
for _ in $(seq 20); do
    printf '%s %s\n' "$("$older/before")" "$("$older/now")"
done | awk -v commit="$1" '
    NR == 1 || $1 < before { before = $1 }
    NR == 1 || $2 < now { now = $2 }
    END { printf "layout test, full memory: %d ns at %s, %d ns now, ratio %.2f\n", before, commit, now, now / before }'
