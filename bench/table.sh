#!/usr/bin/env bash
# `table` and `show` of 60 MB of rows of one width and 60 MB of rows that vary, beside plain tools on the same bytes in the same run.
. "$(dirname "$0")/common.sh"
python3 "$here/make_tables.py" "$work/fixed.tab" "$work/varying.tab" 60000000
cd "$work"
for kind in fixed varying; do
  echo "$kind rows: $(wc -c < $kind.tab) bytes, $("$vpf" table $kind.tab)"
  rows=$("$vpf" table $kind.tab | awk '{print $3}')
  measure "vpf table" "$vpf" table $kind.tab
  table=$seconds
  measure "vpf show" "$vpf" show $kind.tab
  show=$seconds
  measure "cat | wc -c" sh -c "cat $kind.tab | wc -c"
  ratio "table to cat | wc -c" "$table" "$seconds"
  measure "sha256sum" sha256sum $kind.tab
  ratio "table to sha256sum" "$table" "$seconds"
  measure "od -An -v -tx4" od -An -v -tx4 $kind.tab
  ratio "show to od" "$show" "$seconds"
  measure "plain reader in Python" python3 "$here/plain_reader.py" $kind.tab
  ratio "rows a second, table to a plain reader" "$seconds" "$table"
  ratio "million rows a second, table" "$rows" "$(python3 -c "print($table * 1e6)")"
  ratio "million rows a second, show" "$rows" "$(python3 -c "print($show * 1e6)")"
done
