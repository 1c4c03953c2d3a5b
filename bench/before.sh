#!/usr/bin/env bash
# The commands over coverages, each next to that of another build of the program, whose path OLD has, as the one before a change; and next to `cat` of the files
# that they read. `check` of the grid of 200 by 200 cells in tiles of two by two (10,000 tiles), of the untiled grid of 400 by 400, `tile` of the untiled grid of
# 200 by 200 into those tiles, `glue` of them, and `select` of one code in a hundred of 200,000 roads by its thematic index. All are run in turn, in memory, and
# the ratios are those of their medians.
export TMPDIR=/dev/shm
. "$(dirname "$0")/common.sh"
[ -x "${OLD:-}" ] || { echo "set OLD to the path of the other program" >&2; exit 1; }
cd "$work"
python3 "$here/make_coverage.py" lib/g 200
python3 "$here/make_plan.py" lib g 200 2
python3 "$here/make_coverage.py" plain/g 400
cp -r lib bare
"$vpf" tile bare g many > made
python3 "$here/make_features.py" lib g 200000
"$vpf" tile lib g roads > made
"$vpf" index roads/g/road.lft f_code list roads/g/road.lti > made
for folder in many plain roads bare; do
  find $folder -type f | sort > $folder.files
  echo "bytes of the files of $folder: $(xargs -a $folder.files cat | wc -c)"
done
in_turn "${ROUNDS:-9}" <<COMMANDS
	cat, many tiles	sh	-c	xargs -a many.files cat
	check, many tiles	$vpf	check	many	g
	the other build	$OLD	check	many	g
	cat, untiled	sh	-c	xargs -a plain.files cat
	check, untiled	$vpf	check	plain	g
	the other build	$OLD	check	plain	g
out	tile	$vpf	tile	bare	g	out
out	the other build	$OLD	tile	bare	g	out
back	glue	$vpf	glue	many	g	back
back	the other build	$OLD	glue	many	g	back
	select, by its index	$vpf	select	roads	g	road	f_code	AP034
	the other build	$OLD	select	roads	g	road	f_code	AP034
COMMANDS
set -- $medians
# above NAME NEW OLD CAT: the time over that of cat, to that of the other build
above() {
  python3 -c 'import sys; new, old, cat = map(float, sys.argv[2:]); print(f"{sys.argv[1]:<44} {(new - cat) / (old - cat):6.2f}")' "$@"
}
ratio "check of many tiles to the other build" "$2" "$3"
above "the same, over cat" "$2" "$3" "$1"
ratio "check of the untiled grid to the other build" "$5" "$6"
above "the same, over cat" "$5" "$6" "$4"
ratio "tile to the other build" "$7" "$8"
ratio "glue to the other build" "$9" "${10}"
ratio "glue to tile" "$9" "$7"
ratio "select to the other build" "${11}" "${12}"
