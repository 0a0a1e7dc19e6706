#!/bin/sh
# One night, start to end: requests to the arbiter, the log of what it granted, an order of the jobs, and the check of that order.
# Wants the three programs (tools/build.sh trial lister checker) and perl, which turns numbers into bytes and back.
set -e
cd "$(dirname "$0")/.."
night=$(mktemp -d)
trap 'rm -rf "$night"' EXIT

# The night of P3: job 2 reads what job 1 then writes; job 3, opened after the end of job 1, reads a cell that job 2 asks to write at the end.
perl -e '
  for ([1, 0, 0], [1, 0, 0], [2, 5, 2], [3, 5, 1], [4, 0, 1], [1, 0, 0], [2, 6, 3], [4, 0, 3], [3, 6, 2], [3, 5, 2], [4, 0, 2]) {
    my ($kind, $cell, $job) = @$_;
    print pack "CCvV", $kind, 0, $cell, $job;
  }' > "$night/requests"

echo "the arbiter's replies:"
target/bin/trial < "$night/requests" | tee "$night/replies"

# The log: the requests that were granted; an open carries the number that it got.
perl -e '
  open my $in, "<:raw", $ARGV[0]; open my $said, "<", $ARGV[1]; <$said>;
  while (read $in, my $record, 8) {
    my (undef, $code, $job) = split " ", <$said>;
    next if $code;
    my ($kind, undef, $cell) = unpack "CCv", $record;
    print pack "CCvV", $kind, 0, ($kind == 2 || $kind == 3 ? $cell : 0), $job;
  }' "$night/requests" "$night/replies" > "$night/log"

echo "an order:"
target/bin/lister "$night/log" | tee "$night/listed"

perl -ne 'print pack "V", $_ if $. > 1' "$night/listed" > "$night/order"
echo "the check of that order:"
target/bin/checker "$night/log" "$night/order"

for other in "1, 2, 3" "3, 2, 1"; do
  perl -e "print pack 'V*', $other" > "$night/other"
  echo "the check of the order $other:"
  target/bin/checker "$night/log" "$night/other"
done
