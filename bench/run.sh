#!/usr/bin/env bash
# Builds the proved program `bench` and the plain Rust one, sees that both give the same sums, times ten million takes of each tree by
# turns, and prints the least of the runs. usage: bench/run.sh [RUNS]
set -eu
cd "$(dirname "$0")/.."
runs=${1:-5}
tools/build.sh bench
cargo build --release --offline --quiet --manifest-path bench/plain/Cargo.toml
proved=target/bin/bench
plain=bench/plain/target/release/plain
diff <("$proved") <("$plain") || { echo "the sums differ"; exit 1; }
out=$(mktemp -d)
trap 'rm -r "$out"' EXIT
for _ in $(seq "$runs"); do
  "$proved" time >> "$out/proved"
  "$plain" time >> "$out/plain"
done
least() { sed -n "s/^$2: \([0-9]*\) ns a take\$/\1/p" "$out/$1" | sort -n | head -1; }
printf '%-16s %10s %10s %8s\n' 'ns a take' proved plain ratio
for tree in 'door' '32 capacitors'; do
  a=$(least proved "$tree")
  b=$(least plain "$tree")
  printf '%-16s %10s %10s %8s\n' "$tree" "$a" "$b" "$(awk "BEGIN { printf \"%.2f\", $a / $b }")"
done
for which in proved plain; do
  awk -v n="$which" -v a="$(least $which door)" -v b="$(least $which '32 capacitors')" 'BEGIN { printf "%s: the door line lasts 1/%.1f of the 32 capacitors\n", n, b / a }'
done
