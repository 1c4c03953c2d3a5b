#!/usr/bin/env bash
# `tile` of the grid of 100 by 100, 200 by 200 and 400 by 400 cells (320,800 edges) into tiles of two by two, read and written in memory; next to a plain copy
# of the files that it makes, which is time of the system alone and is taken off, and to `check` of the same grid. Each step has four times the edges and the
# files: linear work gives 4.
export TMPDIR=/dev/shm
. "$(dirname "$0")/common.sh"
cd "$work"
for n in 100 200 400; do
  python3 "$here/make_coverage.py" "lib$n/g" $n
  python3 "$here/make_plan.py" "lib$n" g $n 2
  measure "vpf check, $n by $n" "$vpf" check "lib$n" g
  check=$seconds
  makes=out
  measure "vpf tile, $n by $n" "$vpf" tile "lib$n" g out
  tile=$seconds
  "$vpf" check out g
  echo "files made: $(find out -type f | wc -l), bytes: $(find out -type f -printf '%s\n' | awk '{ sum += $1 } END { print sum }')"
  makes=copied
  measure "cp -r of the files made" cp -r out copied
  makes=
  rest=$(python3 -c "print($tile - $seconds)")
  printf '%-28s %8.3f s\n' "tile without the copy" "$rest"
  ratio "tile to check of its source" "$tile" "$check"
  ratio "tile without the copy to check" "$rest" "$check"
  eval "tile$n=$tile rest$n=$rest"
  rm -rf out copied
done
ratio "time at 200 to time at 100" "$tile200" "$tile100"
ratio "time at 400 to time at 200" "$tile400" "$tile200"
ratio "without the copy, 200 to 100" "$rest200" "$rest100"
ratio "without the copy, 400 to 200" "$rest400" "$rest200"
