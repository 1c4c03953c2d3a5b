#!/usr/bin/env bash
# `check` of a grid of 200 by 200 and of 400 by 400 cells (320,800 edges), next to `cycles` over the same edges and to sha256sum over the
# coverage's files. Four times the edges: a linear check gives 4.
. "$(dirname "$0")/common.sh"
cd "$work"
for n in 200 400; do
  python3 "$here/make_coverage.py" "lib/g$n" $n
  measure "vpf check, $n by $n" "$vpf" check lib "g$n"
  "$vpf" check lib "g$n"
  eval "time$n=$seconds"
done
ratio "time at 400 to time at 200" "$time400" "$time200"
measure "vpf cycles, 400 by 400" "$vpf" cycles lib/g400/edg
ratio "check to cycles" "$time400" "$seconds"
measure "sha256sum" sha256sum lib/g400/edg lib/g400/fac lib/g400/rng lib/g400/cnd
ratio "check to sha256sum" "$time400" "$seconds"
echo "bytes of the coverage's files: $(cat lib/g400/* | wc -c)"
