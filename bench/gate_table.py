"""Writes the table of docs/GATE.md, crate by crate, from what a run of the gate cost: gate_table.py FILE, at the root of the clone.

FILE has a line a crate: its name, and the seconds of a processor of its proof, of its tests, of the proof before its edits and of these."""
import pathlib
import sys

known = {line.split(":")[0] for line in pathlib.Path("crates.txt").read_text().splitlines() if ":" in line and not line.startswith("#")}
spent = {}
for line in pathlib.Path(sys.argv[1]).read_text().splitlines():
    words = line.split()
    if len(words) >= 5 and words[0] in known:
        spent[words[0]] = [int(word) for word in words[1:5]]
rows = ["| Crate | Proof | Tests | Before edits | Edits |", "|---|---|---|---|---|"]
for name, seconds in sorted(spent.items(), key=lambda it: -sum(it[1])):
    rows.append(f"| {name} | " + " | ".join(str(it or "") for it in seconds) + " |")
page = pathlib.Path("docs/GATE.md")
before, _, rest = page.read_text().partition("| Crate | Proof |")
page.write_text(before + "\n".join(rows) + "\n\n" + rest.partition("\n\n")[2])
print("minutes of a processor:", *(f"{sum(it[k] for it in spent.values()) / 60:.0f}" for k in range(4)))
