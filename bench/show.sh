#!/usr/bin/env bash
# `show` of a table of 16,000,000 bytes, beside `od` on the same bytes in the same run.
. "$(dirname "$0")/common.sh"
python3 "$here/make_plain.py" "$work/plain.tab" 16000000
cd "$work"
measure "vpf show" "$vpf" show plain.tab
show=$seconds
measure "od -An -v -td4 -w4" od -An -v -td4 -w4 plain.tab
ratio "show to od" "$show" "$seconds"
echo "text of show: $("$vpf" show plain.tab | wc -c) bytes, file: $(wc -c < plain.tab) bytes"
