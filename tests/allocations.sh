#!/usr/bin/env bash
# Outside the gate: the first example with its first allocation refused, then its second, and so on until a run meets no
# refused one. Where the run itself ends in want of memory, the test memory_may_be_refused sees the files as promised.
# The first allocations are those of the test's own words and files: there nothing runs, and nothing is seen.
# Some 15 seconds a run.
set -u
cd "$(dirname "$0")/../crates/run_vectors" || exit 1
refused=0
ended=0
for number in $(seq 1 300); do
  shown=$(rt try --test --fail-alloc "$number" -- memory_may_be_refused 2>&1)
  if ! grep -q 'test result: ok. 1 passed' <<<"$shown"; then
    printf 'tests: allocation %s:\n%s\n' "$number" "$shown"
    exit 1
  fi
  if grep -q 'status 0' <<<"$shown"; then
    echo "tests: $refused allocations were refused in turn, $ended of them in the run, and run $number is done"
    exit 0
  fi
  refused=$number
  if grep -q 'status 8' <<<"$shown"; then
    ended=$((ended + 1))
  fi
done
echo "tests: no run of 300 was done"
exit 1
