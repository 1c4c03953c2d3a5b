#!/usr/bin/env bash
# `index` and `rows` over 1,000,000 rows: a column of 10,000 values and one of 100, beside awk over the same rows as text in the same run;
# and over as many rows that vary, with their variable-length index and without.
# (Bitmaps of 10,000 values would be longer than a file may be.)
. "$(dirname "$0")/common.sh"
python3 "$here/make_rows.py" "$work/half.tab" "$work/half.txt" "$work/half_ids.tab" 500000
python3 "$here/make_rows.py" "$work/rows.tab" "$work/rows.txt" "$work/ids.tab" 1000000
cd "$work"
measure "index list, 500,000 rows" "$vpf" index half.tab v list half.lti
half=$seconds
measure "index list, 1,000,000 rows" "$vpf" index rows.tab v list made.lti
ratio "twice the rows" "$seconds" "$half"
measure "index bitmap, 1,000,000 rows" "$vpf" index rows.tab g bitmap made.lti

# select COLUMN VALUE FIELD KIND..: rows without an index, and with one of each kind
select_by() {
  column=$1 value=$2 field=$3
  shift 3
  rm -f "$column.lti"
  measure "awk, column $column" awk "\$$field == $value { print \$1 }" rows.txt
  awk=$seconds
  measure "rows $column, plain scan" "$vpf" rows rows.tab "$column" "$value"
  scan=$seconds
  ratio "scan to awk" "$scan" "$awk"
  "$vpf" rows rows.tab "$column" "$value" > scanned
  for kind in "$@"; do
    "$vpf" index rows.tab "$column" "$kind" "$column.lti" > made
    measure "rows $column, $kind" "$vpf" rows rows.tab "$column" "$value"
    ratio "$kind to scan" "$seconds" "$scan"
    ratio "$kind to awk" "$seconds" "$awk"
    "$vpf" rows rows.tab "$column" "$value" | cmp - scanned
  done
}
select_by v 1234 2 list
select_by g 34 3 list bitmap

# Swapped twice, the table has its index beside it.
"$vpf" swap ids.tab turned.tab > made
"$vpf" swap turned.tab w.tab > made
measure "rows that vary, scan" "$vpf" rows w.tab g 34
scan=$seconds
"$vpf" rows w.tab g 34 > scanned
"$vpf" index w.tab g list w.lti > made
measure "rows that vary, list" "$vpf" rows w.tab g 34
ratio "list to scan" "$seconds" "$scan"
"$vpf" rows w.tab g 34 | cmp - scanned
rm w.tax
measure "rows that vary, list alone" "$vpf" rows w.tab g 34
ratio "list alone to scan" "$seconds" "$scan"
"$vpf" rows w.tab g 34 | cmp - scanned
