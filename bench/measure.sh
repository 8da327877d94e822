#!/bin/sh
# Times a program in Rattle, given on standard input, beside those in Rust in bench/NAME.rs: bench/lines.sh and bench/reads.sh call it.
# The program does a million of whatever is measured and prints the sum that the one in Rust prints; it is made in a folder of its own,
# since the gate would prove it each time.
# usage: bench/measure.sh NAME WHAT < PROGRAM        at the top of the repository, with nothing else running
set -eu
name=$1
what=$2
top=$(pwd)
work=$(mktemp -d)
trap 'rm -rf "$work"' EXIT

rustc --edition 2024 -C opt-level=3 "$top/bench/$name.rs" -o "$work/rust"
"$work/rust" | tee "$work/rust.txt"

mkdir -p "$work/crates/timed/src"
cp -r "$top/crates/row" "$top/crates/bits" "$top/crates/frame" "$top/crates/reader" "$work/crates/"
printf 'row:\nbits:\nframe: row bits\nreader: row bits frame\ntimed: frame reader anyhow\n' > "$work/crates.txt"
cat > "$work/crates/timed/src/main.rt"
(cd "$work/crates/timed" && rt run > "$work/sum.txt" 2> "$work/said.txt") || { cat "$work/said.txt"; exit 1; }
# A program that does something else would be no measure.
if test "$(cat "$work/sum.txt")" != "$(sed -n '1s/.*sum //p' "$work/rust.txt")"; then
    echo "the sums differ: $(cat "$work/sum.txt")" >&2
    exit 1
fi
best=999999999
for _ in 1 2 3 4 5 6 7 8 9; do
    begin=$(date +%s%N)
    sum=$("$work/crates/timed/out/timed")
    took=$(($(date +%s%N) - begin))
    if test "$took" -lt "$best"; then best=$took; fi
done
echo "Rattle, $what: $((best / 1000000)) ns a line, sum $sum"
