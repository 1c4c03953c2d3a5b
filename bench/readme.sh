#!/usr/bin/env bash
# Types the commands of the README's first run, of docs/COMMANDS.md, HEADLINE.md and RECIPES.md, each page in a folder of its own that holds what the root of a clone does, and compares what
# they print with the lines there; those of docs/GIS.md where GDAL and OGDI are. But for out/ the folder has to stay as it was. Each command of the README has to be a case, with the same words
# and text. Then words that are no text have to end with status 2, and help has to fit 80 columns.
. "$(dirname "$0")/common.sh"
type_in() {
  mkdir "$work/$1"
  cp -R "$here/../examples" "$here/../bench" "$work/$1"
  cd "$work/$1"
  find examples bench -type f -exec sha256sum {} + | sort > ../before
  awk "$3" "$here/../$2" > page
  type_page page
  find . -path ./out -prune -o -path ./crates -prune -o -type f ! -name page ! -name typed -exec sha256sum {} + | sed 's,  \./,  ,' | sort > ../after
  diff ../before ../after || { echo "$2 leaves files beside out/" >&2; exit 1; }
  echo "$2 says what is printed"
}
type_in tour README.md '/^## /{tour = $0 == "## First run"} tour && /^    /{print substr($0, 5)}'
type_in commands docs/COMMANDS.md '/^```/{fenced = !fenced} !fenced && /^    /{print substr($0, 5)}'
type_in headline docs/HEADLINE.md 'BEGIN {print "$ PATH=$PWD/crates/vpf/out:$PATH; mkdir -p out"} /^## /{typed = $0 == "## The example"} typed && /^    /{print substr($0, 5)}'
parallel=$(command -v parallel || true)
export parallel
type_in recipes docs/RECIPES.md 'BEGIN {there = 1} /^##/{there = !/several machines/ || ENVIRON["parallel"]} there && /^    /{print substr($0, 5)}'
if command -v ogrinfo > /dev/null && command -v ogdi_info > /dev/null; then
  type_in gis docs/GIS.md '/^    /{print substr($0, 5)}'
fi

python3 "$here/readme_cases.py" "$here/.."

status=0
"$vpf" show "$(printf '\377')" > printed 2>&1 || status=$?
[ "$status" = 2 ] || { echo "words that are no text end with status $status" >&2; exit 1; }

status=0
"$vpf" --help > printed 2> told || status=$?
[ "$status" = 2 ] && [ "$(cat printed)" = usage ] && [ -s told ] || { echo "--help ends with status $status" >&2; exit 1; }
awk 'length($0) > 80 {print FILENAME ": a line of " length($0); found = 1} END {exit found}' told
