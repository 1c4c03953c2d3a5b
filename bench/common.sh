# Shared by the scripts of this folder: where the program is, and how a command is measured.
set -eu
here=$(cd "$(dirname "${BASH_SOURCE[0]}")" && pwd)
vpf=${VPF:-$(ls -t "$here"/../crates/vpf/out/vpf "$here"/../crates/vpf/out/*/vpf 2>/dev/null | head -n 1)}
[ -x "$vpf" ] || { echo "no built program: run 'rt run' in crates/vpf, or set VPF to its path" >&2; exit 1; }
work=$(mktemp -d)
trap 'rm -rf "$work"' EXIT

# measure NAME COMMAND..: runs the command three times, prints the best time and the peak memory, and leaves the time in $seconds.
# The peak is never told below that of the process that measures, about 14 MiB. The files and folders that $makes names are removed before each
# run, so that each run makes new ones: to empty a large file that is still being written to the disk takes longer than to copy it.
measure() {
  name=$1
  shift
  python3 - "$work/seconds" "${makes:-}" "$name" "$@" <<'PY'
import os, resource, shutil, subprocess, sys, time
out, makes, name, command = sys.argv[1], sys.argv[2].split(), sys.argv[3], sys.argv[4:]
best = None
for _ in range(3):
    for made in filter(os.path.exists, makes):
        shutil.rmtree(made) if os.path.isdir(made) else os.remove(made)
    start = time.perf_counter()
    subprocess.run(command, stdout=subprocess.DEVNULL, check=True)
    spent = time.perf_counter() - start
    best = spent if best is None else min(best, spent)
peak = resource.getrusage(resource.RUSAGE_CHILDREN).ru_maxrss
print(f"{name:<28} {best:8.3f} s   peak {peak / 1024:8.1f} MiB")
open(out, "w").write(str(best))
PY
  seconds=$(cat "$work/seconds")
}

# in_turn ROUNDS: runs the commands of its input in turn, ROUNDS times, and prints of each the median of its times, the least, and the peak. A line of the input is
# MADE NAME COMMAND, parted by tabs: what MADE names is removed before each run of the command. So each command meets the same hours of the machine, which one
# that runs alone for some seconds does not: one and the same command takes up to twice its least time. The medians are left in $medians, one a command.
in_turn() {
  cat > "$work/commands"
  python3 - "$work/medians" "$work/commands" "$1" <<'PY'
import os, shutil, statistics, subprocess, sys, time
out, page, rounds = sys.argv[1], sys.argv[2], int(sys.argv[3])
commands = [line.rstrip("\n").split("\t") for line in open(page)]
times = [[] for _ in commands]
peaks = [0 for _ in commands]
for _ in range(rounds):
    for k, (made, _, *command) in enumerate(commands):
        if made and os.path.exists(made):
            shutil.rmtree(made)
        start = time.perf_counter()
        child = subprocess.Popen(command, stdout=subprocess.DEVNULL)
        _, status, used = os.wait4(child.pid, 0)
        times[k].append(time.perf_counter() - start)
        child.returncode = os.waitstatus_to_exitcode(status)
        if child.returncode:
            sys.exit(f"{command[0]} ended with {child.returncode}")
        peaks[k] = max(peaks[k], used.ru_maxrss)
for (_, name, *_), spent, peak in zip(commands, times, peaks):
    print(f"{name:<30} {statistics.median(spent):8.3f} s   least {min(spent):8.3f} s   peak {peak / 1024:8.1f} MiB")
open(out, "w").write(" ".join(str(statistics.median(spent)) for spent in times))
PY
  medians=$(cat "$work/medians")
}

# ratio NAME A B: prints A / B
ratio() {
  python3 -c 'import sys; print(f"{sys.argv[1]:<44} {float(sys.argv[2]) / float(sys.argv[3]):6.2f}")' "$1" "$2" "$3"
}

# type_page PAGE: types the commands of a page, which stand behind a `$`, in a folder of its own with the program where a clone has it, and compares what they
# print with the lines there.
type_page() {
  mkdir -p crates/vpf/out
  cp "$vpf" crates/vpf/out/vpf
  [ -s "$1" ] || { echo "the page has no commands" >&2; exit 1; }
  : > typed
  while IFS= read -r line; do
    case $line in
      '$ '*)
        printf '%s\n' "$line" >> typed
        # A refusal has a status of its own, and is no fault of the page.
        eval "${line#\$ }" >> typed 2>&1 < /dev/null || true
        ;;
    esac
  done < "$1"
  diff "$1" typed
}
