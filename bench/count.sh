#!/bin/sh
# Lines of code, of definitions and laws, and of proofs, for each crate, as a table.
cd "$(dirname "$0")/.."
lines() { find "$1" -name "$2" -type f 2>/dev/null | xargs cat 2>/dev/null | wc -l; }
echo "| crate | src | specs | proofs | must-fail edits |"
echo "|---|---|---|---|---|"
for c in $(grep -v '^#' crates.txt | sed 's/[ :].*//'); do
  echo "| \`$c\` | $(lines crates/$c/src '*.rt') | $(lines crates/$c/specs '*.antt') | $(lines crates/$c/proofs '*.antt') | $(ls crates/$c/must-fail 2>/dev/null | wc -l) |"
done
echo "| all | $(lines crates '*.rt') | $(cat crates/*/specs/*.antt | wc -l) | $(find crates -path '*/proofs/*' -name '*.antt' | xargs cat | wc -l) | $(ls crates/*/must-fail/*.edit | wc -l) |"
