#!/bin/sh
# Builds and runs the C program and the Rust tests over the archives, and the two examples of README.md.
# Wants cc and cargo, and before it `tools/build.sh arbiter orders archive ledger batch importer exporter`. Last line: `N passed, 0 failed`. Leaves nothing behind.
cd "$(dirname "$0")/.." || exit 1
work=$(mktemp -d) || exit 1
trap 'rm -rf "$work"' EXIT
export CARGO_TARGET_DIR="$work/cargo"
archives="target/staticlib/libarbiter.a target/staticlib/liborders.a"
ledger=target/staticlib/libledger.a
batch=target/staticlib/libbatch.a
coarse=target/staticlib/libarchive.a
notation="target/staticlib/libimporter.a target/staticlib/libexporter.a"
strict="-Wall -Wextra -Werror -pedantic"
passed=0
failed=0

# Runs a command: passed if it succeeds.
try() {
  what=$1
  shift
  if "$@"; then
    echo "ok    $what"
    passed=$((passed + 1))
  else
    echo "FAIL  $what"
    failed=$((failed + 1))
  fi
}

# Adds up the counts that a program printed: `N passed, M failed` or `N passed; M failed`. A program that printed none is one failure, as is
# one that counted no failure and yet did not succeed.
count() {
  sums=$(awk '{ for (i = 2; i + 2 <= NF; i++) if ($i ~ /^passed[;,]$/ && $(i + 2) ~ /^failed;?$/) { p += $(i - 1); f += $(i + 1) } } END { print p + 0, f + 0 }' "$1")
  here=${sums% *}
  bad=${sums#* }
  if [ "$bad" = 0 ] && { [ "$here" = 0 ] || [ "$2" != 0 ]; }; then
    echo "FAIL  ended with status $2 and counted nothing wrong"
    bad=1
  fi
  passed=$((passed + here))
  failed=$((failed + bad))
}

# The block of README.md in a language.
example() {
  awk -v open="\`\`\`$1" '$0 == open { on = 1; next } $0 == "```" { on = 0 } on' README.md
}

for archive in $archives $ledger $batch $coarse $notation; do
  try "$archive is there (tools/build.sh writes it)" test -f "$archive"
done
if [ "$failed" != 0 ]; then
  echo "$passed passed, $failed failed"
  exit 1
fi

# A C program is built with what it is linked with, run, and its own count added.
for_c() { # NAME ARCHIVE..
  name=$1
  shift
  try "bindings/c/$name.c is built" cc -std=c11 $strict -O1 -g -I bindings "bindings/c/$name.c" "$@" -o "$work/$name"
  "$work/$name" > "$work/$name.out" 2>&1
  status=$?
  cat "$work/$name.out"
  count "$work/$name.out" $status
}

echo "---- C"
try "the header by itself, as C11" cc -std=c11 $strict -fsyntax-only -x c bindings/reedtangle.h
if command -v c++ > /dev/null; then
  try "the header by itself, as C++11" c++ -std=c++11 $strict -fsyntax-only -x c++ bindings/reedtangle.h
fi
for_c night $archives
for_c ledger $ledger
for_c batch $batch $archives
for_c archive $coarse $archives
for_c desk $archives
for_c notation $notation
for_c small $archives -pthread

echo "---- Rust"
(cd bindings/rust && cargo test --offline --locked) > "$work/cargo.out" 2>&1
status=$?
cat "$work/cargo.out"
count "$work/cargo.out" $status

echo "---- the examples of README.md"
example c > "$work/host.c"
try "the one in C is built" cc -std=c11 $strict -I bindings "$work/host.c" $archives -o "$work/host"
try "and refuses its last request with 7" test "$("$work/host" | tail -n 1)" = "5 7 0"
example rust > "$work/host.rs"
try "the crate is built" cargo build --quiet --offline --locked --manifest-path bindings/rust/Cargo.toml
try "the one in Rust is built" rustc --edition 2021 -D warnings --extern reedtangle="$CARGO_TARGET_DIR/debug/libreedtangle.rlib" "$work/host.rs" -o "$work/host-rust"
try "and lists 2, 1" test "$("$work/host-rust")" = "[2, 1]"

echo "$passed passed, $failed failed"
[ "$failed" = 0 ]
