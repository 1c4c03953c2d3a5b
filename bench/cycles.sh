#!/usr/bin/env bash
# `cycles` of the edges of a grid of 100 by 100 and of 200 by 200 cells (80,400 edges). Four times the edges: a linear walk gives 4.
. "$(dirname "$0")/common.sh"
cd "$work"
for n in 100 200; do
  python3 "$here/make_grid.py" "edg$n" $n
  measure "vpf cycles, $n by $n" "$vpf" cycles "edg$n"
  "$vpf" cycles "edg$n" | tail -n 1
  eval "time$n=$seconds"
done
ratio "time at 200 to time at 100" "$time200" "$time100"
