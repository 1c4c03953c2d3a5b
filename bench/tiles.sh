#!/usr/bin/env bash
# `check` of the grid of 200 by 200 cells in tiles of two by two (10,000 tiles, 120,000 edges), read in memory, next to one of 244 by 244 in four tiles with as many
# edges, to sha256sum over the library's bytes in one file, to the same behind cat of all its files, and to `check` of the untiled grid; and of a grid
# with a quarter of the tiles. All are run in turn, and the ratios are those of their medians.
export TMPDIR=/dev/shm
. "$(dirname "$0")/common.sh"
cd "$work"
for n in 100 200 244; do
  python3 "$here/make_coverage.py" "plain/g$n" $n
done
python3 "$here/make_tiles.py" plain/g200 many cov 200 2
python3 "$here/make_tiles.py" plain/g100 quarter cov 100 2
python3 "$here/make_tiles.py" plain/g244 few cov 244 122
for lib in quarter many few; do
  "$vpf" check $lib cov
  find $lib -type f | sort > $lib.files
  xargs -a $lib.files cat > $lib.all
  echo "bytes of the library's files: $(wc -c < $lib.all)"
done
in_turn 9 <<COMMANDS
	vpf check, quarter	$vpf	check	quarter	cov
	vpf check, many	$vpf	check	many	cov
	vpf check, few	$vpf	check	few	cov
	vpf check, untiled	$vpf	check	plain	g200
	sha256sum, many	sha256sum	many.all
	cat and sha256sum, many	sh	-c	xargs -a many.files cat | sha256sum
	sha256sum, few	sha256sum	few.all
COMMANDS
read -r quarter many few untiled sum piped few_sum <<< "$medians"
ratio "time of many tiles to a quarter of them" "$many" "$quarter"
ratio "time of many tiles to few" "$many" "$few"
ratio "check of many tiles to sha256sum" "$many" "$sum"
ratio "check of many tiles to cat and sha256sum" "$many" "$piped"
ratio "check of few tiles to sha256sum" "$few" "$few_sum"
ratio "check of many tiles to the untiled grid" "$many" "$untiled"
