#!/usr/bin/env bash
# `glue` of the grid of 200 by 200 cells in tiles of two by two (10,000 tiles), read and written in memory, next to `tile`, which cuts that grid into them, and to
# `check` of the tiles; and of a grid with half as many tiles. The files that `tile` makes are copied plainly too, which is time of the system alone and is taken off.
# All four are run in turn, and the ratios are those of their medians.
export TMPDIR=/dev/shm
. "$(dirname "$0")/common.sh"
cd "$work"
for n in 142 200; do
  python3 "$here/make_coverage.py" "lib$n/g" $n
  python3 "$here/make_plan.py" "lib$n" g $n 2
  in_turn 9 <<COMMANDS
out	vpf tile, $n by $n	$vpf	tile	lib$n	g	out
copied	cp -r of the files made	cp	-r	out	copied
	vpf check of the tiles	$vpf	check	out	g
back	vpf glue, $n by $n	$vpf	glue	out	g	back
COMMANDS
  read -r tile copy check glue <<< "$medians"
  "$vpf" check back g
  echo "bytes of the files made: $(find back -type f -printf '%s\n' | awk '{ sum += $1 } END { print sum }')"
  ratio "glue to tile" "$glue" "$tile"
  ratio "glue to tile without the copy" "$glue" "$(python3 -c "print($tile - $copy)")"
  ratio "glue to check of the tiles" "$glue" "$check"
  eval "glue$n=$glue"
  rm -rf out copied back
done
ratio "time of 10,000 tiles to 5,041" "$glue200" "$glue142"
