#!/usr/bin/env bash
# `table` of a table of 67,108,864 bytes whose rows have one width and of one whose rows vary, in turn with `cat | wc -c` and, where OLD names one, with another
# build of the program. Then the least room in which `table` still answers: the address space that `ulimit -v` leaves, by halving. A file of a few bytes needs as
# much as one of 64 MiB, and so does one whose first cell says that it has 4,294,967,295 values.
export TMPDIR=/dev/shm
. "$(dirname "$0")/common.sh"
cd "$work"
python3 "$here/make_pieces.py" .
for kind in fixed varying; do
  echo "$kind rows: $(wc -c < $kind.tab) bytes, $("$vpf" table $kind.tab)"
  {
    printf '\tvpf table\t%s\ttable\t%s\n' "$vpf" $kind.tab
    printf '\tcat | wc -c\tsh\t-c\tcat %s | wc -c\n' $kind.tab
    [ -z "${OLD:-}" ] || printf '\tthe other build\t%s\ttable\t%s\n' "$OLD" $kind.tab
  } > asked
  in_turn 9 < asked
  set -- $medians
  ratio "table to cat | wc -c" "$1" "$2"
  [ -z "${OLD:-}" ] || ratio "table to that of the other build" "$1" "$3"
done
python3 - "$vpf" small.tab fixed.tab varying.tab header.tab text.tab pairs.tab triples.tab <<'PY'
import resource, subprocess, sys
vpf, names = sys.argv[1], sys.argv[2:]


def answer(name, room):
    """What `table` answers in so many KiB of address space."""
    def narrow():
        if room:
            resource.setrlimit(resource.RLIMIT_AS, (room * 1024, room * 1024))
    done = subprocess.run([vpf, "table", name], preexec_fn=narrow, capture_output=True)
    return done.returncode, done.stdout


found = {}
for name in names:
    want, low, high = answer(name, 0), 0, 1 << 20
    while high - low > 4:
        middle = (low + high) // 2
        low, high = (low, middle) if answer(name, middle) == want else (middle, high)
    found[name] = high
    print(f"{name:<30} {high:8} KiB   {want[1].decode().strip()}")
print(f"{'most less least':<30} {max(found.values()) - min(found.values()):8} KiB")
PY
