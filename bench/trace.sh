#!/usr/bin/env bash
# `trace` next to `check`, over the grid of 200 by 200 cells, over one with twice the edges, and over the first cut into 10,000 tiles of two by two
# cells, whose lines are passed over.
. "$(dirname "$0")/common.sh"
cd "$work"
for n in 200 283; do
  python3 "$here/make_coverage.py" "plain/g$n" $n
  measure "vpf check, $n by $n" "$vpf" check plain "g$n"
  check=$seconds
  measure "vpf trace, $n by $n" "$vpf" trace plain "g$n"
  ratio "trace to check, $n by $n" "$seconds" "$check"
  eval "trace$n=$seconds"
done
ratio "trace at twice the edges" "$trace283" "$trace200"
python3 "$here/make_tiles.py" plain/g200 many cov 200 2
measure "vpf check, 10,000 tiles" "$vpf" check many cov
check=$seconds
measure "vpf trace, 10,000 tiles" "$vpf" trace many cov
ratio "trace to check, 10,000 tiles" "$seconds" "$check"
"$vpf" trace many cov | tail -n 1
