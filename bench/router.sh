#!/usr/bin/env bash
# Times the router: 144,000 marks of 16 sources over 16 outs, all routed, a third of them inside System Exclusive, once with
# dumps of 3 marks, where next to nothing is held, and once with dumps of 1,000, where up to 15,000 marks are held. The cost a
# mark must not grow with what is held: the second may not take over twice the time of the first.
# Run it after `rt test` in crates/mb_calls, which builds the tests.
cd "$(dirname "$0")/../crates/mb_calls" || exit 1
[ -x out/mb_calls_tests ] || { echo "run 'rt test' in crates/mb_calls first"; exit 1; }

# the least of ten runs, in microseconds
least() {
  local best=0
  for _ in 1 2 3 4 5 6 7 8 9 10; do
    local start end
    start=$(date +%s%N)
    out/mb_calls_tests "merge::$1" >/dev/null || exit 1
    end=$(date +%s%N)
    local took=$(((end - start) / 1000))
    if [ "$best" -eq 0 ] || [ "$took" -lt "$best" ]; then best=$took; fi
  done
  echo "$best"
}

short=$(least all_routed_with_short_dumps)
long=$(least all_routed_with_long_dumps)
echo "dumps of 3 marks:     $short us, $((short * 1000 / 144000)) ns a mark"
echo "dumps of 1,000 marks: $long us, $((long * 1000 / 144000)) ns a mark"
[ "$long" -le $((2 * short)) ]
