#!/usr/bin/env bash
# `select` of one code in a hundred of 200,000 roads over the grid of 200 by 200 cells in tiles of two by two (10,000 tiles), by the thematic index of the code and
# by a look at every road; next to `check` of the same tiles, which looks at the roads too, with and without the index, and to `tile`, which
# copies them; and of half as many roads. The commands over one number of roads are run in turn, and the ratios are those of their medians.
export TMPDIR=/dev/shm
. "$(dirname "$0")/common.sh"
cd "$work"
for n in 100000 200000; do
  python3 "$here/make_coverage.py" lib/g 200
  python3 "$here/make_plan.py" lib g 200 2
  python3 "$here/make_features.py" lib g $n
  "$vpf" tile lib g out > made
  cmp lib/g/road.lft out/g/road.lft
  cp -r out with
  "$vpf" index with/g/road.lft f_code list with/g/road.lti > made
  in_turn 5 <<COMMANDS
out	vpf tile, $n roads	$vpf	tile	lib	g	out
	vpf check of the tiles	$vpf	check	out	g
	vpf select, $n roads, scan	$vpf	select	out	g	road	f_code	AP034
	vpf check, with the list	$vpf	check	with	g
	vpf select, $n roads, list	$vpf	select	with	g	road	f_code	AP034
COMMANDS
  read -r tile check scan listed list <<< "$medians"
  "$vpf" select out g road f_code AP034 > scanned
  "$vpf" select with g road f_code AP034 | cmp - scanned
  tail -n 1 scanned
  echo "bytes of the files read: $(find with -type f -printf '%s\n' | awk '{ sum += $1 } END { print sum }')"
  ratio "list to scan" "$list" "$scan"
  ratio "list to check of the tiles" "$list" "$check"
  ratio "check with the list to check" "$listed" "$check"
  ratio "tile to check of the tiles" "$tile" "$check"
  eval "list$n=$list scan$n=$scan"
  rm -rf lib out with
done
ratio "twice the roads, list" "$list200000" "$list100000"
ratio "twice the roads, scan" "$scan200000" "$scan100000"
