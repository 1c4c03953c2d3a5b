#!/usr/bin/env bash
# Small files that are dear to read, each at N, 2N and 4N: processor time and peak of memory, and how many times as much twice the size takes. KINDS names some of
# them, as `KINDS="collide values" scaling.sh`; SECONDS_EACH is when a run is ended (30).
. "$(dirname "$0")/common.sh"
cd "$work"
python3 - "$vpf" "$here" "${SECONDS_EACH:-30}" ${KINDS:-} <<'PY'
import os, resource, signal, subprocess, sys
vpf, here, most, names = sys.argv[1], sys.argv[2], int(sys.argv[3]), sys.argv[4:]
sizes = {"values": 32000, "collide": 16000, "slashes": 250000, "joins": 1000, "fcstiles": 2000, "features": 1000, "overlap": 4000, "bitmaps": 8000,
         "columns": 4000, "copies": 1000, "hub": 500, "wheel": 1000}


def spent(words):
    """The status, the processor seconds and the peak in MiB of one run; the status is None where it was ended."""
    def limits():
        resource.setrlimit(resource.RLIMIT_CPU, (most, most + 1))
    child = subprocess.Popen([vpf, *words], stdout=subprocess.DEVNULL, preexec_fn=limits)
    _, status, used = os.wait4(child.pid, 0)
    child.returncode = 0
    code = os.waitstatus_to_exitcode(status)
    return (None if code < 0 else code), used.ru_utime + used.ru_stime, used.ru_maxrss / 1024


print(f"{'kind':<10} {'N':>8} {'status':>7} {'seconds':>9} {'times':>6} {'MiB':>9} {'times':>6}")
for kind in names or sizes:
    before = None
    for n in (sizes[kind], 2 * sizes[kind], 4 * sizes[kind]):
        words = subprocess.run([sys.executable, here + "/make_hostile.py", kind, f"{kind}{n}", str(n)], check=True, capture_output=True, text=True).stdout.split()
        status, seconds, peak = spent(words)
        times = [f"{now / max(then, 0.001):6.2f}" for now, then in zip((seconds, peak), before)] if before else [" " * 6] * 2
        print(f"{kind:<10} {n:8} {'ended' if status is None else status:>7} {seconds:9.3f} {times[0]} {peak:9.1f} {times[1]}", flush=True)
        before = seconds, peak
        subprocess.run(["rm", "-rf", f"{kind}{n}", f"{kind}{n}.out"], check=True)
        if status is None:
            break
PY
