#!/usr/bin/env bash
# `swap` of 60 MB of rows of one width and 60 MB of rows that vary, beside plain copies of the same bytes in the same run, and beside half as
# many rows: a linear pass gives 2.
. "$(dirname "$0")/common.sh"
python3 "$here/make_tables.py" "$work/half_fixed.tab" "$work/half_varying.tab" 30000000
python3 "$here/make_tables.py" "$work/fixed.tab" "$work/varying.tab" 60000000
cd "$work"
for kind in fixed varying; do
  "$vpf" swap $kind.tab $kind.out > made
  made=$(awk '/^made/ { sum += $3 } END { print sum }' made)
  read=$(wc -c < $kind.tab)
  echo "$kind rows: $read bytes read, $made bytes made"
  makes="half.out half.oux"
  measure "vpf swap, half" "$vpf" swap half_$kind.tab half.out
  half=$seconds
  makes="$kind.out $kind.oux"
  measure "vpf swap" "$vpf" swap $kind.tab $kind.out
  swap=$seconds
  ratio "swap to swap of half" "$swap" "$half"
  makes=copied
  measure "cp" cp $kind.tab copied
  ratio "swap to cp" "$swap" "$seconds"
  measure "dd conv=swab" dd if=$kind.tab of=copied conv=swab bs=1M status=none
  ratio "swap to dd conv=swab" "$swap" "$seconds"
  ratio "MB read a second" "$read" "$(python3 -c "print($swap * 1e6)")"
  ratio "MB made a second" "$made" "$(python3 -c "print($swap * 1e6)")"
done
