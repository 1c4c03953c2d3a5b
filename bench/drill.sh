#!/usr/bin/env bash
# `drill` of the grid of 200 by 200 cells, next to its parts as commands of their own over the same grid in files: `check` of the grid, `tile`, and `check` and
# `trace` of what was made. Then the digest of small grids, worked out by a plain loop over the files that `tile` makes and the lines that `trace` prints.
export TMPDIR=/dev/shm
. "$(dirname "$0")/common.sh"
cd "$work"
for n in 2 4 200; do
  python3 "$here/make_coverage.py" "lib$n/g" "$n"
  python3 "$here/make_plan.py" "lib$n" g "$n" 2
done
measure "vpf check, the grid" "$vpf" check lib200 g
check=$seconds
makes=out
measure "vpf tile" "$vpf" tile lib200 g out
parts=$(python3 -c "print($check + $seconds)")
makes=
measure "vpf check, 10,000 tiles" "$vpf" check out g
measure "vpf trace, 10,000 tiles" "$vpf" trace out g
parts=$(python3 -c "print($parts + $seconds)")
rm -rf out
measure "vpf drill 200" "$vpf" drill 200
ratio "drill to check of its grid" "$seconds" "$check"
ratio "drill to check, tile and trace" "$seconds" "$parts"
"$vpf" drill 200
for n in 2 4 200; do
  "$vpf" tile "lib$n" g "out$n" > "made$n"
  "$vpf" trace "out$n" g > "traced$n"
  python3 - "made$n" "traced$n" "out$n" > "digest$n" <<'PY'
import sys
made, traced, out = sys.argv[1:]
names = [line.split()[1] for line in open(made) if line.startswith("made ")]
digest = 0
for name in [*names, traced]:
    for byte in open(name, "rb").read():
        digest = (31 * digest + byte) % 2**32
print("digest", digest)
PY
  "$vpf" drill "$n" | tail -n 1 | diff - "digest$n"
done
echo "the digests agree"
