#!/bin/sh
# Every table of docs/FIGURES.md that is measured, into a markdown file: bench/all.sh FILE. The picture goes beside it. Some minutes; best on a machine that
# does nothing else. Wants cargo and valgrind, and before it, at the top of the repository:
#   tools/build.sh arbiter orders archive trial
set -e
[ $# = 1 ] || { echo "usage: bench/all.sh FILE" >&2; exit 2; }
case $1 in /*) file=$1 ;; *) file=$PWD/$1 ;; esac
folder=$(dirname "$file")
cd "$(dirname "$0")"
for f in staticlib/libarbiter.a staticlib/liborders.a staticlib/libarchive.a bin/trial; do
  [ -f "../target/$f" ] || { echo "there is no target/$f: tools/build.sh arbiter orders archive trial" >&2; exit 1; }
done
command -v valgrind > /dev/null || { echo "valgrind is wanted" >&2; exit 1; }
cargo build --release --offline --locked --quiet
bench=target/release/bench
work=$(mktemp -d)
trap 'rm -rf "$work"' EXIT
start=$(date +%s)

# Instructions of a command. Callgrind counts `rep stosb` once a byte, so memset and memcpy are told to do without it.
count() {
  GLIBC_TUNABLES=glibc.cpu.x86_rep_stosb_threshold=1000000000:glibc.cpu.x86_rep_movsb_threshold=1000000000 \
    valgrind --tool=callgrind --callgrind-out-file=/dev/null "$@" 2>&1 > /dev/null | awk '/Collected/ { print $4 }'
}
# A number with commas, after a division.
each() { awk -v n="$1" -v d="$2" 'BEGIN { s = sprintf("%.0f", n / d); while (s ~ /[0-9][0-9][0-9][0-9]/) sub(/[0-9][0-9][0-9]($|,)/, ",&", s); print s }'; }
ratio() { awk -v a="$1" -v b="$2" -v digits="${3:-2}" 'BEGIN { printf "%.*f\n", digits, a / b }'; }

requests() {
  echo "| | replay | exported step | step by value | tuned Rust | replay to Rust |"
  echo "|---|---|---|---|---|---|"
  for open in 8 32; do
    none=$(count $bench count none $open 100000)
    ours=$(($(count $bench count ours $open 100000) - none))
    step=$(($(count $bench count step $open 100000) - none))
    value=$(($(count $bench count value $open 100000) - none))
    rust=$(($(count $bench count rust $open 100000) - none))
    echo "| a request, $open jobs open | $(each $ours 100000) | $(each $step 100000) | $(each $value 100000) | $(each $rust 100000) | $(ratio $ours $rust) |"
  done
}

# One row: a log's name and kind, and whose numbers stand beside ours.
log_row() {
  none=$(count $bench orders none "$2" 10)
  row="| $1 |"
  for what in check list; do
    ours=$(($(count $bench orders ours-$what "$2" 10) - none))
    rust=$(($(count $bench orders "$3-$what" "$2" 10) - none))
    row="$row $(each $ours 10) | $(each $rust 10) | $(ratio $ours $rust) |"
  done
  echo "$row"
}

logs() {
  echo "| full-size log | check | Rust | ratio | list | Rust | ratio |"
  echo "|---|---|---|---|---|---|---|"
  log_row "4,096 records, 512 jobs, 256 cells" sparse rust
  log_row "the same on 12 cells" dense rust
  log_row "256 cells, gaps between the numbers" gaps rust
  log_row "the same, the partner with no hash" gaps halving
  log_row "512 jobs, the only order reversed" reversed rust
}

flat() {
  echo "| jobs open | from request | exported step | to the start |"
  echo "|---|---|---|---|"
  for open in 8 32; do
    first=
    for age in 10000 1000000 10000000; do
      $bench flat-make $open $age 100000 "$work/run"
      here=$(($(count $bench flat-count ours "$work/run") - $(count $bench flat-count none "$work/run")))
      first=${first:-$here}
      echo "| $open | $(each $age 1) | $(ratio $here 100000 1) | $(ratio $here $first 3) |"
    done
  done
}

{
  echo "# Figures, $(date -u +%Y-%m-%d), commit $(git rev-parse --short HEAD 2> /dev/null)"
  echo
  echo "$(nproc) processors ($(awk -F': ' '/model name/ { print $2; exit }' /proc/cpuinfo)), $(rustc --version). Load before: $(cut -d' ' -f1-3 /proc/loadavg)."
  echo
  echo "## Instructions"
  echo
  echo "By \`valgrind --tool=callgrind\`, what a side takes beyond \`none\`, divided by the requests or the times."
  echo
  requests
  echo
  logs
  echo
  echo "100,000 requests from each place of one long run:"
  echo
  flat
  echo
  echo "## Times"
  echo
  $bench figures "$folder"
  echo
  $bench flat
  echo
  echo "Load after: $(cut -d' ' -f1-3 /proc/loadavg)."
  echo
  echo "## Lines"
  echo
  ./count.sh
} > "$work/all.md"
mv "$work/all.md" "$file"
echo "$file, after $(($(date +%s) - start)) s"
